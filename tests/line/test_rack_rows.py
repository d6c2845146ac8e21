"""The row of a rack file that is reported if the file is not accepted."""
import pytest

RACK = """\
workers = 2
[[line]]
number = 1
capacity = 1000 # places
masters = [1, 2]
[[line.slave]]
address = 5 # of the first slave
ident = 0x80A1
cfg = "2111"
[[line.slave]]
address = 6
ident = 0x80A1
cfg = "2111"
[[line]]
number = 2
capacity = 1000
masters = [1]
[[line.slave]]
cfg = "21"
ident = 0x1234
address = 5
"""
# What is put in place of a text of the rack, and the rows that are reported of it behind the first.
FOUND = {
    "a-key-of-the-file": (
        "workers = 2", "wrokers = 2",
        'key "wrokers": no such key, perhaps "workers"', 'row 1 of FILE: found "wrokers = 2"'),
    "two-letters-swapped": (
        'masters = [1, 2]', 'mastres = [1, 2]',
        'line 1, key "mastres": no such key, perhaps "masters"', 'row 5 of FILE: found "mastres = [1, 2]"'),
    "two-letters-swapped-in-a-short-key": (
        'ident = 0x1234', 'idnet = 0x1234',
        'line 2, slave 1, key "idnet": no such key, perhaps "ident"', 'row 20 of FILE, slave 5: found "idnet = 0x1234"'),
    "a-blank-in-a-configuration": (
        'cfg = "21"\n', 'cfg = "21 11"\n',
        'line 2, slave 1, key "cfg": expected pairs of hex digits without spaces, as "2111"',
        'row 19 of FILE, slave 5: found "cfg = "21 11""'),
    "the-second-slave": (
        'address = 6\nident = 0x80A1', 'address = 6\nident = "x"',
        'line 1, slave 2, key "ident": expected a number from 0 to 65535', 'row 12 of FILE, slave 6: found "ident = "x""'),
    "a-comment-behind-the-address": (
        '0x80A1\ncfg = "2111"\n[[line.slave]]', '0x80A1\n   cfg = 1 # inputs\n[[line.slave]]',
        'line 1, slave 1, key "cfg": expected a text in quotes or an array of texts',
        'row 9 of FILE, slave 5: found "cfg = 1 # inputs"'),
    "a-key-that-is-missing": (
        'number = 2\n', '', 'line 2, key "number": missing', 'row 14 of FILE: table "[[line]]"'),
    "a-slave-without-an-address": (
        'address = 6\n', '', 'line 1, slave 2, key "address": missing', 'row 10 of FILE: table "[[line.slave]]"'),
    "no-toml": (
        'ident = 0x1234', 'ident = = 1', 'row 20: .*', 'row 20 of FILE: found "ident = = 1"'),
    "headers-with-blanks": (
        '[[line]]\nnumber = 2', '[[ line ]]\nnumber = x', 'row 15: .*', 'row 15 of FILE: found "number = x"'),
}
LATER = {
    "two-lines-with-one-number": (
        "number = 2", "number = 1", "rack TwiceLine", "line 2: number 1 is used twice, also by line 1",
        'row 14 of FILE: table "[[line]]"'),
    "an-address-that-is-used-twice": (
        "address = 6", "address = 5", "rack line 1 TwiceAddress", "line 1, slave 2: address 5 is used twice",
        'row 10 of FILE, slave 5: table "[[line.slave]]"'),
}


def refused(run, tmp_path, before, after):
    """Runs `check` with a changed rack, and returns the rows that it reports, with FILE in place of the path."""
    assert RACK.count(before) == 1
    path = tmp_path / "rack.toml"
    path.write_text(RACK.replace(before, after), encoding="utf-8")
    status, output, errors = run("check", path, path)
    assert (status, output) == (2, "")
    return errors.replace(str(path), "FILE").splitlines()


@pytest.mark.parametrize("before, after, cause, row", FOUND.values(), ids=FOUND)
def test_row_of_a_key(run, tmp_path, before, after, cause, row):
    first, second, third = refused(run, tmp_path, before, after)
    name = "NotToml" if cause.startswith("row ") else "BadKey"
    assert (first, third) == (f"rackd: rack {name}", f"  {row}")
    assert second == f"  {cause}" or cause.endswith(".*") and second.startswith(f"  {cause[:-2]}")


@pytest.mark.parametrize("before, after, name, cause, row", LATER.values(), ids=LATER)
def test_table_of_a_fault(run, tmp_path, before, after, name, cause, row):
    assert refused(run, tmp_path, before, after) == [f"rackd: {name}", f"  {cause}", f"  {row}"]


@pytest.mark.parametrize("before, after, second", [
    pytest.param('cfg = "21"\n', "cfg = '''\n[[line]]\n'''\n", 'line 2, slave 1, key "cfg": ', id="a-value-of-several-rows"),
    pytest.param('[[line.slave]]\ncfg = "21"\nident = 0x1234\naddress = 5\n', "slave = [{address = 5, cfg = 1, ident = 1}]\n",
                 'line 2, slave 1, key "cfg": ', id="tables-within-a-row"),
])
def test_file_in_another_form_has_no_row(run, tmp_path, before, after, second):
    first, cause = refused(run, tmp_path, before, after)
    assert first == "rackd: rack BadKey"
    assert cause.startswith(f"  {second}")


def test_audit_text_in_place_of_the_rack(run, tmp_path):
    audit = tmp_path / "line-1-1.audit"
    audit.write_text("rack-audit 2 line 1\n", encoding="utf-8")
    rack = tmp_path / "rack.toml"
    rack.write_text(RACK, encoding="utf-8")
    status, output, errors = run("check", audit, rack)
    assert (status, output) == (2, "")
    assert errors.splitlines()[2:] == [
        f'  row 1 of {audit}: found "rack-audit 2 line 1"',
        f"  {audit} is an audit text; the rack file comes first: rackd check RACK AUDIT.."]
