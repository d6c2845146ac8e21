"""Texts of an endless line that were written by hand: legal ones, and each change to a head, an entry or an end is refused."""
from typing import NamedTuple

import pytest

from support.racks import line, rack, slave

RACK = rack(line(7, slave(5, sync=True, freeze=True), masters=[1, 2], capacity=20_000))
# A Data_Exchange with two inputs, of high priority, from slave 5 to master 1.
REPLY = "6805056801050aaa540e16"
# A head of line 7.
HEAD = """\
rack-audit 3 line 7 from 7160
line running 18929
slave 5 DataExch 1 4 95 -----d--
set 5 60 0 0 -f-
prm 5 100 -f 60 3 0aff
in 5 aa55 aa54
out 5 0102 0102
diag 5 e--u--- 0407
last 5 1 1 6805056801050aaa540e16
last 5 2 none
"""
# What follows the head: an entry, whose row has the number 7162, and the next part, whose rows of a head have the number of the
# row behind them, 7163.
BEHIND = """\
7161 tick 1 | none | released
rack-audit 3 line 7 from 7161
line running 18930
slave 5 DataExch 1 4 94 -----d--
set 5 60 0 0 -f-
prm 5 100 -f 60 3 0aff
in 5 aa55 aa54
out 5 0102 0102
diag 5 e--u--- 0407
last 5 1 1 6805056801050aaa540e16
last 5 2 none
7162 halt | none | released 5
"""
# A text from the start of the line: an entry, and the next part.
WHOLE = """\
rack-audit 3 line 7
1 tick 1 | none | released
rack-audit 3 line 7 from 1
line running 1
slave 5 WaitPrm none 0 off --------
set 5 11 none 0 ---
prm 5 none
in 5 0000 0000
out 5 0000 0000
diag 5 ------- -
last 5 1 none
last 5 2 none
2 halt | none | released
"""
# The texts that are legal: their last place, and the places that an explanation has.
LEGAL = {
    "head": (HEAD, 7160, []),
    # A line that goes on from a head has the same head.
    "head-again": (HEAD + HEAD + "7161 halt | none | released 5\n", 7161, [7161]),
    "two-parts": (HEAD + BEHIND, 7162, [7161, 7162]),
    "from-the-start": (WHOLE, 2, [1, 2]),
}
WHOLE_WITHOUT_HEADS = "rack-audit 3 line 7\n1 tick 1 | none | released\n2 halt | none | released\n"


class Changed(NamedTuple):
    """What is changed in a text, everywhere: the old octets, the new ones, and the verdict."""

    old: str
    new: str
    verdict: str


# Each field of the second head, and the entry before it.
BEHIND_CHANGES = [Changed(*change) for change in [
    ("from 7161", "from 7160", "not the policy 7163"),
    ("line running", "line halted", "not the policy 7163"),
    ("18930", "18931", "not the policy 7163"),
    ("18930", "none", "not the policy 7163"),
    ("DataExch 1", "WaitCfg 1", "not the policy 7163"),
    ("DataExch 1", "DataExch 2", "not the policy 7163"),
    ("1 4 94", "1 5 94", "not the policy 7163"),
    ("4 94 -", "4 95 -", "not the policy 7163"),
    ("-----d--", "----c---", "not the policy 7163"),
    ("set 5 60", "set 5 61", "not the policy 7163"),
    ("60 0 0 -f-", "60 1 0 -f-", "not the policy 7163"),
    ("60 0 0 -f-", "60 0 1 -f-", "not the policy 7163"),
    ("0 0 -f-", "0 0 sf-", "not the policy 7163"),
    ("prm 5 100", "prm 5 101", "not the policy 7163"),
    ("100 -f 60", "100 sf 60", "not the policy 7163"),
    ("-f 60 3", "-f 61 3", "not the policy 7163"),
    ("60 3 0aff", "60 4 0aff", "not the policy 7163"),
    ("0aff", "0afe", "not the policy 7163"),
    ("in 5 aa55", "in 5 aa56", "not the policy 7163"),
    ("aa55 aa54", "aa55 aa55", "not the policy 7163"),
    ("out 5 0102", "out 5 0103", "not the policy 7163"),
    ("0102 0102", "0102 0103", "not the policy 7163"),
    ("e--u---", "e------", "not the policy 7163"),
    ("-- 0407", "-- 0408", "not the policy 7163"),
    ("last 5 1 1", "last 5 1 0", "not the policy 7163"),
    ("0e16", "0f16", "not the policy 7163"),
    ("5 2 none", "5 2 1 e5", "not the policy 7163"),
    ("from 7161", "from 07161", "bad line 7163"),
    ("7161 tick 1", "7162 tick 1", "not the policy 7162"),
    ("7161 tick 1 |", "7161 tick 1", "bad line 7162"),
    # the head lacks its last row
    ("last 5 2 none\n", "", "not the policy 7163"),
    # something follows the last row
    ("released 5\n", "released 5\n7", "bad line 7164"),
]]
# The text from its start: entries, the head between them, and its end.
WHOLE_CHANGES = [Changed(*change) for change in [
    ("1 tick 1", "1 tick 2", "not the policy 3"),
    ("1 tick 1 |", "1 tick 1", "bad line 2"),
    ("none | released\nrack", "none | Done\nrack", "not the policy 2"),
    ("from 1", "from 2", "not the policy 3"),
    ("from 1", "from 01", "bad line 3"),
    ("WaitPrm none", "WaitCfg none", "not the policy 3"),
    ("out 5 0000", "out 5 0001", "not the policy 3"),
    ("5 2 none\n", "5 2 none\nlast 5 3 none\n", "bad line 3"),
    ("2 halt", "3 halt", "not the policy 3"),
    ("2 halt | none | released\n", "2 halt | none | released\n4", "bad line 4"),
    ("last 5 2 none\n2 halt | none | released\n", "", "bad line 3"),
    ("\n2 halt | none | released\n", "", "bad line 3"),
]]
# A head with which a text begins: no header of the line, a wrong row, or what no line can be.
HEAD_CHANGES = [Changed(*change) for change in [
    ("audit 3", "audit 2", "bad line 1"),
    ("line 7", "line 8", "bad line 1"),
    ("slave 5", "slave 6", "bad line 3"),
    ("out 5", "out 6", "bad line 7"),
    ("in 5 aa55", "in 5 AA55", "bad line 6"),
    ("in 5 aa55", "in 5 aa5500", "bad line 3"),
    ("DataExch 1", "DataExch 3", "not the policy 3"),
    ("1 4 95", "1 0 95", "not the policy 3"),
    ("prm 5 100", "prm 5 off", "not the policy 3"),
    # Its lock leaves no place for the Chk_Cfg after it.
    ("DataExch 1 4", "DataExch 1 7160", "not the policy 3"),
    # The watchdog has no time left, or more than its full time, which is the product of two octets.
    ("4 95 -", "4 0 -", "not the policy 3"),
    ("4 95 -", "4 101 -", "not the policy 3"),
    ("prm 5 100", "prm 5 257", "not the policy 3"),
    # No master sets min TSDR 0. Its parameters asked for Freeze only, and it is not in sync mode.
    ("set 5 60", "set 5 0", "not the policy 3"),
    ("100 -f 60", "100 -- 60", "not the policy 3"),
    ("0 0 -f-", "0 0 sf-", "not the policy 3"),
    ("0102 0102", "0102 0103", "not the policy 3"),
    # A lock clears all faults.
    ("e--u---", "e--up--", "not the policy 3"),
    ("e--u---", "e--u-c-", "not the policy 3"),
    ("e--u---", "e--u--n", "not the policy 3"),
    # It remembers a reply to another master, one of another slave, one of another length, the FDL status, a request, no frame, nothing.
    (REPLY, "6805056802050aaa540f16", "not the policy 3"),
    (REPLY, "6805056801060aaa540f16", "not the policy 3"),
    (REPLY, "6806066801050aaa54000e16", "not the policy 3"),
    (REPLY, "100105000616", "not the policy 3"),
    (REPLY, "1001056d7316", "not the policy 3"),
    (REPLY, "6805056801050aaa540f16", "not the policy 3"),
    (REPLY, "-", "not the policy 3"),
    ("from 7160", "from 4294967295", "not the policy 2"),
    ("line running", "line halted", "not the policy 2"),
]]
# A text that ends behind the header of its second head.
CUT_HEAD = HEAD + "7161 tick 1 | none | released\nrack-audit 3 line 7 from 7161\n"


@pytest.fixture(name="run_on")
def fixture_run_on(run, tmp_path):
    """A function that runs a command on line 7 and a text."""
    rack_file, text_file = tmp_path / "rack.toml", tmp_path / "audit"
    rack_file.write_text(RACK, encoding="ascii")

    def call(command, text):
        text_file.write_text(text, encoding="ascii")
        return run(command, rack_file, text_file)

    return call


def verdicts_of(run_on, commands, before, text, changes):
    """Returns the verdict of each command on a text with each change, behind another text; and those that are expected."""
    found, expected = [], []
    for change in changes:
        changed = text.replace(change.old, change.new)
        assert changed != text, change
        for command in commands:
            done = run_on(command, before + changed)
            found.append((command, change, done.status, done.output.splitlines()[-1]))
            expected.append((command, change, 1, change.verdict))
    return found, expected


@pytest.mark.parametrize("text, last, places", LEGAL.values(), ids=LEGAL)
def test_legal(run_on, text, last, places):
    """A part alone, two parts, and a text from its start are legal; an explanation has their entries and nothing of heads."""
    assert run_on("check", text) == (0, f"legal {last}\n", "")
    explained = run_on("explain", text)
    assert explained.status == 0
    blocks = [row for row in explained.output.split("\nholds\n")[0].splitlines() if row[:5].strip().isdigit()]
    assert [int(row[:5]) for row in blocks] == places


def test_explanation_without_heads(run_on):
    """An explanation of a text with a head is that of the text without it."""
    assert run_on("explain", WHOLE) == run_on("explain", WHOLE_WITHOUT_HEADS)


def test_changes_behind_a_head(run_on):
    """A head with any other field is refused behind the part before it, and so are wrong entries and another end."""
    found, expected = verdicts_of(run_on, ["check"], HEAD, BEHIND, BEHIND_CHANGES)
    assert found == expected


def test_changes_from_the_start(run_on):
    """An explanation, which reads the rows of entries alone, ends with the verdict of the check."""
    found, expected = verdicts_of(run_on, ["check", "explain"], "", WHOLE, WHOLE_CHANGES)
    assert found == expected


def test_changes_of_a_first_head(run_on):
    found, expected = verdicts_of(run_on, ["check"], "", HEAD, HEAD_CHANGES)
    assert found == expected


def test_text_that_ends_in_a_head(run_on):
    done = run_on("check", CUT_HEAD)
    assert (done.status, done.output) == (1, "bad line 7163\n")
