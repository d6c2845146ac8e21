"""`rackd gsd`: the file that it writes, names of vendors and models, and slaves that a rack does not have."""
import os
import subprocess

import pytest

from support.command_lines import without_row_of_file
from support.processes import PATIENCE

NO_NAME = "rackd: a name for the GSD file is not accepted\n"
NOT_PRINTABLE = "a character that is not printable in ISO 8859-1"


def test_whole_file(written, rack, by_hand):
    """The file is one that was written by hand, to the octet."""
    assert written("gsd", rack, "7", "9", "--vendor", "Prüf", "--model", "M;1") == (by_hand / "one.written").read_bytes()


@pytest.mark.parametrize("name", ["", "x", "a;b\\", "ÿ" * 32, "\u00a0 ~", "0" * 32],
                         ids=["none", "one-letter", "signs", "32-not-ascii", "blanks", "32-digits"])
def test_names(written, read_back, rack, name):
    """Names are in ISO 8859-1, and nothing in them keeps the file from being read back."""
    text = written("gsd", rack, "7", "9", "--vendor", name, "--model", name)
    for key in ("Vendor_Name", "Model_Name"):
        assert f'{key} = "{name}"\r\n'.encode("latin-1") in text
    keys = {"address": 5, "ident": 0x0A5F, "sync": True, "freeze": False, "user_max": 12, "failsafe": True}
    assert read_back(text, 2) == [{**keys, "cfg": "2111"}, {**keys, "cfg": "4f00c101030010"}]


def test_names_are_not_exchanged(written, rack):
    text = written("gsd", rack, "7", "9", "--vendor", "one", "--model", "other")
    assert b'Vendor_Name = "one"\r\nModel_Name = "other"\r\n' in text


def test_names_that_are_missing(written, rack):
    assert b'Vendor_Name = "rackd"\r\nModel_Name = "simulated slave"\r\n' in written("gsd", rack, "7", "9")


@pytest.mark.parametrize("option", ["vendor", "model"])
@pytest.mark.parametrize("name, cause", [
    ("0" * 33, "more than 32 characters"), ("é" * 33, "more than 32 characters"), ('a"b', "a quote in a name"),
    ("a\tb", NOT_PRINTABLE), ("\x7f", NOT_PRINTABLE), ("\u0080", NOT_PRINTABLE), ("\u0100", NOT_PRINTABLE),
    ("€", NOT_PRINTABLE), ("a\nb", NOT_PRINTABLE),
], ids=["33-digits", "33-not-ascii", "quote", "tab", "delete", "U+0080", "U+0100", "euro", "line-feed"])
def test_refused_name(refused, rack, option, name, cause):
    refused(f"{NO_NAME}  {option}: {cause}\n", "gsd", rack, "7", "9", f"--{option}", name)


def test_no_such_line(refused, rack):
    refused("rackd: the rack has no line 6\n", "gsd", rack, "6", "9")


def test_no_such_slave(refused, rack):
    refused("rackd: the line has no slave 8\n", "gsd", rack, "7", "8")


@pytest.mark.parametrize("old, new, report", [
    ("sync", "sink", 'rackd: rack BadKey\n  line 1, slave 1, key "sink": no such key\n'),
    ("2111", "C1", "rackd: rack line 1 BadCfg\n"
                   "  line 1, slave 1: configuration 1 ends within its identifier at octet 1\n"),
], ids=["key", "configuration"])
def test_refused_rack(run, file_of, rack_text, old, new, report):
    assert rack_text.count(old) == 1
    path = file_of("bad.toml", rack_text.replace(old, new).encode())
    assert without_row_of_file(run("gsd", path, "7", "9")) == (2, "", report)


@pytest.mark.parametrize("word", ["gsd", "slave"])
def test_output_that_takes_nothing(program, rack, by_hand, word):
    words = {"gsd": ["gsd", rack, "7", "9"], "slave": ["slave", by_hand / "compact.gsd"]}[word]
    with open(os.devnull, "rb") as nothing, open("/dev/full", "wb") as full:
        done = subprocess.run([program, *map(str, words)], stdin=nothing, stdout=full, stderr=subprocess.PIPE, timeout=PATIENCE,
                              check=False)
    assert (done.returncode, done.stderr) == (4, b"rackd: cannot write\n")


@pytest.mark.parametrize("count, wanted", [
    (10, [",".join(["0x10"] * 10)]),
    (11, [",".join(["0x10"] * 10) + ",\\", "0x11"]),
    (26, [",".join(["0x10"] * 10) + ",\\", ",".join(["0x10"] * 15) + ",\\", "0x11"]),
    (41, [",".join(["0x10"] * 10) + ",\\", ",".join(["0x10"] * 15) + ",\\", ",".join(["0x10"] * 15) + ",\\", "0x11"]),
])
def test_long_configuration(written, read_back, file_of, rack_text, count, wanted):
    """Rows have at most 80 characters: ten octets stand in the row of the module, 15 in each further one."""
    octets = "10" * (count - 1) + ("11" if count > 10 else "10")
    path = file_of("long.toml", rack_text.replace('["2111", "4F00C101030010"]', f'"{octets}"').encode())
    text = written("gsd", path, "7", "9")
    rows = text.decode("latin-1").split("\r\n")
    assert max(map(len, rows)) <= 80
    assert rows[-3 - len(wanted):] == ['Module = "Configuration 0" ' + wanted[0], *wanted[1:], "1", "EndModule", ""]
    assert [slave["cfg"] for slave in read_back(text, 1)] == [octets]


def test_slave_with_one_configuration(written, file_of, rack_text):
    """The file of a compact slave has no number of modules and no lengths."""
    one = file_of("one.toml", rack_text.replace('["2111", "4F00C101030010"]', '"2111"').encode())
    rows = written("gsd", one, "7", "9").decode("latin-1").split("\r\n")
    assert "Modular_Station = 0" in rows
    assert [row for row in rows if row.startswith("Max_")] == ["Max_Diag_Data_Len = 244", "Max_User_Prm_Data_Len = 12"]
    assert rows[-4:] == ['Module = "Configuration 0" 0x21,0x11', "1", "EndModule", ""]
