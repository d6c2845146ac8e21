"""`rackd slave`: the slaves of GSD files that were written by hand, modules, and limits."""
import pytest

# The GSD files of this folder, each with the slave that has to be read of it in a file .toml, and its modules in .modules.
FILES = ["compact", "modular", "preset", "old", "latin", "drive"]
HEAD = b"#Profibus_DP\nIdent_Number = 1\nModular_Station = 1\n"
# A module of 122 octets, and one of one octet.
MANY = HEAD + b'Module = "122" ' + b",".join([b"0x00"] * 122) + b'\nEndModule\nModule = "1" 0x00\nEndModule\n'


def modules(*names):
    """Returns the words that name modules."""
    return [word for name in names for word in ("--module", name)]


def modules_of(path):
    """Returns the words that name the modules of a stored GSD file, which has none if no file names them."""
    named = path.with_suffix(".modules")
    return modules(*named.read_text(encoding="utf-8").splitlines()) if named.exists() else []


def refusal(path, cause):
    """Returns what is reported if a file or its modules are not accepted."""
    return f"rackd: cannot use {path}\n  {cause}\n"


def with_list(path, cause):
    """Returns what is reported if a module is unknown or none is named."""
    return refusal(path, cause) + f"  'rackd slave {path} --list' lists the modules\n"


@pytest.mark.parametrize("name", FILES)
def test_file_by_hand(written, by_hand, name):
    path = by_hand / f"{name}.gsd"
    assert written("slave", path, *modules_of(path)) == path.with_suffix(".toml").read_bytes()


@pytest.mark.parametrize("name", FILES)
def test_other_ends_of_rows(written, by_hand, file_of, name):
    """Rows that end in LF may end in CR LF, and the other way round."""
    path = by_hand / f"{name}.gsd"
    octets = path.read_bytes()
    other = octets.replace(b"\r\n", b"\n") if b"\r\n" in octets else octets.replace(b"\n", b"\r\n")
    assert other != octets
    assert written("slave", file_of("other.gsd", other), *modules_of(path)) == path.with_suffix(".toml").read_bytes()


@pytest.mark.parametrize("name, near", [
    ("8DA", "8DI"), ("8D", "8DI"), ("4AI specials", "4AI special"), ("4AI-spezial", "4AI special")])
def test_module_with_a_near_name(refused, by_hand, name, near):
    path = by_hand / "modular.gsd"
    refused(with_list(path, f'no module "{name}", perhaps "{near}"'), "slave", path, *modules("8DO", name))


@pytest.mark.parametrize("name", ["8", "8di!!", "", "Counter", "4A"], ids=["one-letter", "signs", "none", "far", "part-of-a-word"])
def test_module_without_a_near_name(refused, by_hand, name):
    path = by_hand / "modular.gsd"
    refused(with_list(path, f'no module "{name}"'), "slave", path, *modules(name))


@pytest.mark.parametrize("words, cause", [
    (modules(*["8DI"] * 9), "more than 8 modules"),
    (modules("8DI", "8DI", "4AI special", "4AI special"), "18 octets of inputs, but Max_Input_Len is 16"),
], ids=["nine", "too-many-inputs"])
def test_refused_modules(refused, by_hand, words, cause):
    path = by_hand / "modular.gsd"
    refused(refusal(path, cause), "slave", path, *words)


def test_no_module_is_named(refused, by_hand):
    path = by_hand / "modular.gsd"
    refused(with_list(path, "name the modules with --module"), "slave", path)


def test_no_module_in_the_file(refused, by_hand, file_of):
    path = file_of("none.gsd", (by_hand / "compact.gsd").read_bytes().split(b"Module = ")[0])
    refused(refusal(path, "no Module"), "slave", path)


def test_two_modules_of_a_compact_station(refused, by_hand, file_of):
    path = file_of("two.gsd", (by_hand / "compact.gsd").read_bytes() + b'Module = "other" 0x10\nEndModule\n')
    refused(with_list(path, "name the modules with --module"), "slave", path)


def test_configuration_is_cut(refused, by_hand, file_of):
    path = file_of("cut.gsd", (by_hand / "compact.gsd").read_bytes().replace(b"0x11, 0x20", b"0xC0"))
    refused(refusal(path, "the configuration octets of the modules are refused: Cut"), "slave", path)


def test_largest_configuration(written, file_of):
    """A configuration has at most 244 octets."""
    text = written("slave", file_of("many.gsd", MANY), *modules("122", "122")).decode()
    assert f'cfg = "{"00" * 244}"' in text


def test_configuration_is_too_long(refused, file_of):
    path = file_of("many.gsd", MANY)
    refused(refusal(path, "more than 244 configuration octets"), "slave", path, *modules("122", "122", "1"))


# The module has 2 octets of inputs and 3 of outputs.
@pytest.mark.parametrize("key, most, cause", [
    ("Max_Input_Len", 2, "2 octets of inputs, but Max_Input_Len is 1"),
    ("Max_Output_Len", 3, "3 octets of outputs, but Max_Output_Len is 2"),
    ("Max_Data_Len", 5, "5 octets of inputs and outputs, but Max_Data_Len is 4"),
])
def test_limits_of_data(written, refused, file_of, key, most, cause):
    def file_with(limit):
        return file_of(f"{limit}.gsd", HEAD + f'{key} = {limit}\nModule = "both" 0x11 0x22\nEndModule\n'.encode())

    small = file_with(most - 1)
    refused(refusal(small, cause), "slave", small, *modules("both"))
    assert b'cfg = "1122"' in written("slave", file_with(most), *modules("both"))


@pytest.mark.parametrize("text, rows", [
    (HEAD, ""),
    (HEAD + b'Module = "a" 0x11\nEndModule\nModule = "b c" 0x21, \\\n 0x43 0xAA\n1\nPreset = 1\nEndModule\nModule = "d"\nEndModule\n',
     '"a" 11\n"b c" 2143aa preset\n"d" \n'),
    (HEAD + 'Module = "Z\xe4hler" 0x11\nEndModule\n'.encode("latin-1"), '"Z\xe4hler" 11\n'),
], ids=["none", "three", "not-ascii"])
def test_list_of_modules(written, file_of, text, rows):
    assert written("slave", file_of("list.gsd", text), "--list").decode() == rows


def test_list_of_a_damaged_file(refused, file_of):
    path = file_of("damaged.gsd", HEAD + b'Module = 1\n')
    refused(refusal(path, "row 4: expected a name in quotes"), "slave", path, "--list")


@pytest.mark.parametrize("name", FILES)
def test_mark_of_utf_8(written, by_hand, file_of, name):
    """A file reads the same with the mark of UTF-8 (BOM) at its front."""
    path = by_hand / f"{name}.gsd"
    marked = file_of("marked.gsd", b"\xef\xbb\xbf" + path.read_bytes())
    assert written("slave", marked, *modules_of(path)) == path.with_suffix(".toml").read_bytes()
    assert written("slave", marked, "--list") == written("slave", path, "--list")


@pytest.mark.parametrize("encoding", ["utf-16", "utf-16-be"])
@pytest.mark.parametrize("words", [["--list"], []], ids=["list", "slave"])
def test_utf_16(refused, by_hand, file_of, encoding, words):
    text = (by_hand / "compact.gsd").read_bytes().decode("latin-1")
    mark = "\ufeff" if encoding == "utf-16-be" else ""
    path = file_of("wide.gsd", (mark + text).encode(encoding))
    refused(refusal(path, "the file is in UTF-16; save it as ISO 8859-1, or as ASCII"), "slave", path, *words)


@pytest.mark.parametrize("before, after", [
    (b"Modular_Station = 1", b"Modular_Station = \\\n 1"),
    (b"Ident_Number = 1", b"Ident_Number=\\\n\\\n1 ; one"),
    (b'Module = "a" 0x11', b'Module = \\\n"a" 0x11'),
    (b'Module = "a" 0x11', b'Module = \\\n"a" \\\n 0x11'),
], ids=["flag", "two-rows", "module", "module-and-octets"])
def test_value_on_the_next_row(written, file_of, before, after):
    text = HEAD + b'Module = "a" 0x11\nEndModule\nModule = "b" 0x21\nEndModule\n'
    assert text.count(before) == 1
    plain = written("slave", file_of("plain.gsd", text), *modules("a"))
    assert written("slave", file_of("next.gsd", text.replace(before, after)), *modules("a")) == plain


# Two blocks with defaults: bits 4 to 7, and an octet.
DEFAULTS = b"ExtUserPrmData = 1 \"x\"\nBitArea(4-7) 9 0-15\nEndExtUserPrmData\nExtUserPrmData = 2 \"y\"\nSigned8 -3 -9-9\nEndExtUserPrmData\n"


@pytest.mark.parametrize("rows, in_module, most, octets", [
    (b"", b"", 0, ""),
    (b"Max_User_Prm_Data_Len = 7\n", b"", 7, ""),
    (b"User_Prm_Data_Len = 3\n", b"", 3, "000000"),
    (b"Max_User_Prm_Data_Len = 7\nUser_Prm_Data_Len = 3\n", b"", 7, "000000"),
    (b"User_Prm_Data_Len = 3\nUser_Prm_Data = 1, \\\n 0x22\n", b"", 3, "012200"),
    (b"User_Prm_Data = 1,2,3\nUser_Prm_Data_Len = 2\n", b"", 3, "010203"),
    (b"PrmText = 1\nText(0) = \"a\"\nEndPrmText\n", b"", 0, ""),
    (b"Ext_User_Prm_Data_Const(0) = 0x01\n", b"", 1, "01"),
    (b"Ext_User_Prm_Data_Const(2) = 0x01,2\n", b"", 4, "00000102"),
    (b"Ext_User_Prm_Data_Const(0) = 1,2,3,4\nExt_User_Prm_Data_Const(1) = 8,9\n", b"", 4, "01080904"),
    (b"Ext_User_Prm_Data_Const(0) = 1,2\\\n 3\\\n\\\n ,4\n", b"", 4, "01020304"),
    (DEFAULTS + b"Ext_User_Prm_Data_Const(0) = 0x5a\nExt_User_Prm_Data_Ref(0) = 1\nExt_User_Prm_Data_Ref(2) = 2\n", b"", 3, "9a00fd"),
    (b"Ext_User_Prm_Data_Ref(0) = 0x2 ; before the blocks\n" + DEFAULTS, b"", 1, "fd"),
    (b"Ext_User_Prm_Data_Ref(0) = 3\n" + DEFAULTS, b"", 0, ""),
    (b"Ext_User_Prm_Data_Const(0) = 1\n", b"Ext_Module_Prm_Data_Len = 2\n", 3, "010000"),
    (DEFAULTS, b"Ext_User_Prm_Data_Const(0) = 7,8\nExt_User_Prm_Data_Ref(1) = 2\n", 2, "07fd"),
    (b"ext_user_prm_data_const ( 0 ) = 5\nEXT_USER_PRM_DATA_CONST(0X1)=6\n", b"", 2, "0506"),
    (b"Ext_User_Prm_Data_Const(0) = " + b",".join([b"7"] * 237) + b"\n", b"", 237, "07" * 237),
], ids=["none", "most", "length", "both", "data", "data-before-length", "only-texts", "one", "zeros-before", "over", "rows", "defaults",
        "before-blocks", "no-such-default", "length-of-a-module", "module", "signs", "longest"])
def test_user_parameters(written, file_of, rows, in_module, most, octets):
    """The default octets of station and modules are in comments. Without Max_User_Prm_Data_Len there are as many as these."""
    text = written("slave", file_of("user.gsd", HEAD + rows + b'Module = "a" 0x11\n' + in_module + b"EndModule\n"), *modules("a")).decode()
    found = [row for row in text.splitlines() if "user" in row]
    count = len(octets) // 2
    comments = [f"# user parameters of a master: {count} octets, by default", f'# user_default = "{octets}"']
    assert found == [f"user_max = {most}"] + (comments if octets else [])


def test_user_parameters_of_several_modules(written, refused, file_of):
    """Those of the station come first, then those of the modules as they are plugged; together they have at most 237 octets."""
    text = HEAD + (b'Module = "a" 0x11\nExt_User_Prm_Data_Const(0) = 1,2\nEndModule\nModule = "b" 0x21\nExt_Module_Prm_Data_Len = 118\n'
                   b"EndModule\nExt_User_Prm_Data_Const(0) = 9\n")
    path = file_of("user.gsd", text)
    assert b'# user_default = "09' + b"00" * 118 + b'0102"\n' in written("slave", path, *modules("b", "a"))
    assert b"# user parameters of a master: 237 octets, " in written("slave", path, *modules("b", "b"))
    refused(refusal(path, "more than 237 octets of user parameters"), "slave", path, *modules("b", "b", "a"))


def test_list_of_slots(written, by_hand):
    assert written("slave", by_hand / "drive.gsd", "--list") == (by_hand / "drive.list").read_bytes()


@pytest.mark.parametrize("names, cfg", [
    (["PZD 4/4, cyclic"], "f3"), (["PZD 2"], "f1"), (["PZD 2/2", "none"], "f100"), (["PZD 2", "no", "PZD 2", "none"], None),
    (["PZD 2", "PZD 4/4, cyclic, with", "PZD 2", "none"], "f1f390f100"),
], ids=["whole-name", "first-words", "two", "part-of-a-word", "no-slot-4"])
def test_first_words_of_a_module(written, refused, by_hand, names, cfg):
    path = by_hand / "drive.gsd"
    if cfg is None:
        refused(with_list(path, 'no module "no"'), "slave", path, *modules(*names))
    else:
        assert f'cfg = "{cfg}"\n'.encode() in written("slave", path, *modules(*names))


@pytest.mark.parametrize("name, found", [
    ("PZD", '"PZD 2/2" "PZD 4/4, cyclic" "PZD 4/4, cyclic, with time"'), ("PZD 4/4", '"PZD 4/4, cyclic" "PZD 4/4, cyclic, with time"')])
def test_several_modules_with_these_words(refused, by_hand, name, found):
    path = by_hand / "drive.gsd"
    refused(with_list(path, f'several modules begin with "{name}": {found}'), "slave", path, *modules(name))


@pytest.mark.parametrize("names, cause", [
    (["none"], 'slot 1 "Process data" does not take "none", but: "PZD 2/2" "PZD 4/4, cyclic" "PZD 4/4, cyclic, with time"'),
    (["PZD 2", "PZD 2"], 'slot 2 "Option" does not take "PZD 2", but: "PZD 4/4, cyclic, with time" "none"'),
    (["PZD 2", "none", "none"], 'slot 3 "Spare" does not take "none", but: "PZD 2/2"'),
])
def test_slot_does_not_take_a_module(refused, by_hand, names, cause):
    path = by_hand / "drive.gsd"
    refused(with_list(path, cause), "slave", path, *modules(*names))


@pytest.mark.parametrize("slot, cfg", [
    (b'Slot(1) = "a" 2\n', "21"), (b'Slot(1) = "a" 2 1\nSlot(2) = "b" 1 1\n', "2111"), (b'Slot(1) = "a"\nSlot(2) = "b" 1\n', "11"),
    (b'Slot(1) = "a" 0 1\nSlot(2) = "b" 2\n', "21"), (b'Slot(1) = "a" \\\n 2 \\\n 1\n', "21"), (b'SLOT(0x1)="a" 0x2,0x1-0x5\n', "21"),
], ids=["one", "two", "no-default", "zero", "rows", "hex"])
def test_defaults_of_slots(written, refused, file_of, slot, cfg):
    text = HEAD + slot + b'Module = "a" 0x11\n1\nPreset = 1\nEndModule\nModule = "b" 0x21\n2\nEndModule\n'
    path = file_of("slots.gsd", text)
    assert f'cfg = "{cfg}"' in written("slave", path).decode().splitlines()


def test_default_of_a_slot_is_no_module(refused, file_of):
    path = file_of("slots.gsd", HEAD + b'Slot(3) = "a" 5\nModule = "a" 0x11\n1\nEndModule\n')
    refused(refusal(path, "the default of slot 3 is no module of the file"), "slave", path)


def test_module_without_a_reference(written, refused, file_of):
    """A slot takes modules by their references, so it takes none that has no reference."""
    path = file_of("slots.gsd", HEAD + b'Slot(1) = "a" 0 1-9\nModule = "a" 0x11\nEndModule\nModule = "b" 0x21\n9\nEndModule\n')
    refused(with_list(path, 'slot 1 "a" does not take "a", but: "b"'), "slave", path, *modules("a"))
    assert b'cfg = "21"' in written("slave", path, *modules("b"))


@pytest.mark.parametrize("rows", [
    b'Info_Text = "a text; over \\\nrows; of \\\n Module = 1"\n', b'Text(1) = "5" tube"\n', b'Text(1) = "5\n', b"1\n", b"Value\n",
    b"Slot = 1\n", b"Slot(x) = 1\n", b"Ext_User_Prm_Data_Const = 1\n", b"ExtUserPrmData = x\nBit(9) 1\n", b"Unsigned8 5\n",
    b"ExtUserPrmData = 1 \"a\"\nBitArea(5-3) 1\nBit(8) 1\nUnsigned64 1\nUnsigned8\nExt_User_Prm_Data_Ref(0) = 1\n",
], ids=["rows", "three-quotes", "no-end", "number", "no-value", "slot", "slot-x", "no-place", "no-reference", "no-block", "no-form"])
def test_rows_that_are_not_needed(written, file_of, rows):
    """What isn't needed is read over, also if it is not as the specification says."""
    rest = b'Module = "a" 0x11\nEndModule\n'
    plain, more = (written("slave", file_of("left.gsd", HEAD + each + rest), *modules("a")).decode().splitlines() for each in (b"", rows))
    assert [row for row in more if not row.startswith("# left out")] == plain


@pytest.mark.parametrize("fixed, cfg", [(b"", "21"), (b"FixPresetModules = 0\n", "21"), (b"FixPresetModules = 1\n", "1121")],
                         ids=["missing", "0", "1"])
def test_fixed_preset_modules(written, file_of, fixed, cfg):
    """Modules that are plugged from the start are also plugged if others are named, if the file fixes them."""
    path = file_of("fixed.gsd", HEAD + fixed + b'Module = "a" 0x11\nPreset = 1\nEndModule\nModule = "b" 0x21\nEndModule\n')
    assert f'cfg = "{cfg}"' in written("slave", path, *modules("b")).decode()
    assert 'cfg = "11"' in written("slave", path).decode()
