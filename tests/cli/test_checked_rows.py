"""The rows of an audit text that `check` accepts and that it refuses: the header, entries, and heads of parts."""
import pytest

from support.line_rows import LineOfRows, checked, text_of
from support.racks import line, rack, slave

HEADER = "rack-audit 2 line 1\n"
DIAGNOSIS = "req 1 6805056885816d3c3eed16 | WaitPrm none | reply 680b0b688185083e3c020500ff80a1af16 Done\n"
LOCK = "req 1 680c0c6885815d3d3e8802050b80a1019a16 | WaitPrm none | reply e5 Done\n"
RUN = f"""\
{HEADER}1 in 5 aa55 | WaitPrm none | done
2 {DIAGNOSIS}3 {LOCK}4 req 1 6807076885817d3e3e21113116 | WaitCfg 1 | reply e5 Done
5 req 1 6805056805015d1234a916 | DataExch 1 | reply 68050568010508aa550d16 Done
"""
TICK = "tick 1 | none | released\n"
TWO_TICKS = f"{HEADER}1 {TICK}2 {TICK}"
# Texts, and what `check` writes.
TEXTS = {
    "a-run": (RUN, "legal 5"),
    "a-header-alone": (HEADER, "legal 0"),
    "version-1": (HEADER.replace("2 line", "1 line"), "legal 0"),
    "version-3": (HEADER.replace("2 line", "3 line"), "legal 0"),
    "nothing": ("", "bad line 1"),
    "a-header-without-LF": (HEADER[:-1], "bad line 1"),
    "another-line": (HEADER.replace("line 1", "line 2"), "bad line 1"),
    "version-4": (HEADER.replace("2 line", "4 line"), "bad line 1"),
    "a-line-with-a-leading-zero": (HEADER.replace("line 1", "line 01"), "bad line 1"),
    "upper-case": (f"{HEADER}1 in 5 AA55 | WaitPrm none | done\n", "bad line 2"),
    "a-field-too-many": (f"{HEADER}1 in 5 aa55 | WaitPrm none | done | done\n", "bad line 2"),
    "a-field-is-missing": (f"{HEADER}1 in 5 aa55 | WaitPrm none\n", "bad line 2"),
    "a-place-with-a-leading-zero": (f"{HEADER}01 in 5 aa55 | WaitPrm none | done\n", "bad line 2"),
    "a-row-without-LF": (f"{HEADER}1 in 5 aa55 | WaitPrm none | done", "bad line 2"),
    "an-empty-row": (f"{HEADER}\n", "bad line 2"),
    "another-place": (f"{HEADER}2 in 5 aa55 | WaitPrm none | done\n", "not the policy 2"),
    "an-event-that-is-not-recorded": (f"{HEADER}1 in 5 aa | WaitPrm none | refused WrongLength\n", "not the policy 2"),
    "another-state": (f"{HEADER}1 in 5 aa55 | WaitCfg none | done\n", "not the policy 2"),
    "another-outcome": (f"{HEADER}1 in 5 aa55 | WaitPrm none | Done\n", "not the policy 2"),
    "another-reply": (f"{HEADER}1 {DIAGNOSIS.replace('a1af16', 'a1ae16')}", "not the policy 2"),
    "a-place-twice": (f"{TWO_TICKS}2 {TICK}", "not the policy 4"),
    "a-later-row-without-LF": (TWO_TICKS[:-1], "bad line 3"),
    "an-entry-behind-the-halt": (f"{HEADER}1 halt | none | released\n2 {TICK}", "not the policy 3"),
}
# The same of a line of two places.
FULL = {
    "the-halt": (f"{HEADER}1 {TICK}2 halt | none | released\n", "legal 2"),
    "an-event-at-the-last-place": (TWO_TICKS, "not the policy 3"),
    "the-halt-releases": (f"{HEADER}1 {LOCK}2 halt | none | released 5\n", "legal 2"),
    "the-halt-releases-nobody": (
        f"{HEADER}1 req 1 100501494f16 | WaitPrm none | reply 100105000616 Status\n2 halt | none | released\n", "legal 2"),
    "the-halt-releases-another": (f"{HEADER}1 {LOCK}2 halt | none | released\n", "not the policy 3"),
    "an-endless-line": (
        f"{TWO_TICKS}3 halt | none | released\n".replace("rack-audit 2", "rack-audit 3"), "legal 3"),
}


def verdict(run, folder, text, **described):
    """Returns the status and the output of the check of a text."""
    return checked(run, folder, LineOfRows(**described), text)[:2]


def ended(written):
    """Returns the status and the output for what `check` writes."""
    return 0 if written.startswith("legal ") else 1, f"{written}\n"


@pytest.mark.parametrize(("text", "written"), TEXTS.values(), ids=TEXTS)
def test_text(run, tmp_path, text, written):
    assert verdict(run, tmp_path, text) == ended(written)


@pytest.mark.parametrize(("text", "written"), FULL.values(), ids=FULL)
def test_text_of_a_line_of_two_places(run, tmp_path, text, written):
    assert verdict(run, tmp_path, text, capacity=2) == ended(written)


@pytest.mark.parametrize(("header", "written"), [
    ("rack-audit 2 line 1\n", "legal 0"), ("rack-audit 1 line 2\n", "legal 0"), ("rack-audit 3 line 1\n", "legal 0"),
    ("rack-audit 4 line 2\n", "bad line 1"), ("rack-audit 2 line 3\n", "bad line 1")])
def test_header_of_two_lines(run, tmp_path, header, written):
    """A header names a line of the rack and a version from 1 to 3."""
    text = rack(line(1, slave(5), masters=[1]), line(2, slave(5), masters=[1]))
    (tmp_path / "rack.toml").write_text(text, encoding="utf-8")
    (tmp_path / "text").write_text(header, encoding="utf-8")
    assert run("check", "rack.toml", "text", cwd=tmp_path)[:2] == ended(written)


# Events of an audit text that are badly formed: each is the first entry.
EVENTS = {
    "upper-case": "req 1 E5",
    "a-leading-zero": "req 01 e5",
    "two-spaces-behind": "req 1 e5 ",
    "no-octets": "req 1",
    "no-word-for-octets": "req 1 ",
    "a-time-with-a-leading-zero": "tick 01",
    "inputs-in-upper-case": "in 5 AA",
    "a-master-that-is-none": "req 256 -",
    "256-octets": f"req 1 {'e5' * 256}",
}


@pytest.mark.parametrize("event", EVENTS.values(), ids=EVENTS)
def test_event_that_is_badly_formed(run, tmp_path, event):
    assert verdict(run, tmp_path, f"{HEADER}1 {event} | none | silence NoFrame\n") == ended("bad line 2")


def test_events_that_are_well_formed(run, tmp_path):
    text = text_of([
        "rack-audit 2 line 1",
        f"1 req 1 {'e5' * 255} | none | silence NoFrame",
        "2 req 255 - | none | silence NoFrame",
        "3 req 1 e5 | none | silence NotRequest",
        "4 tick 1 | none | released",
        "5 tick 4294967295 | none | released",
    ])
    assert verdict(run, tmp_path, text) == ended("legal 5")


# The head behind six entries. Master 1 has locked slave 7 and then slave 5, master 2 slave 6; slave 8 waits for parameters, and
# its point of Set_Prm is busy. Six units are left of two watchdogs of ten.
SIX_ENTRIES = """\
rack-audit 3 line 1 from 6
line running 4
slave 5 DataExch 1 3 off --------
set 5 11 0 0 ---
prm 5 off -- 11 1 -
in 5 0000 0000
out 5 0000 0000
diag 5 ------- -
last 5 1 none
last 5 2 none
slave 6 WaitCfg 2 2 6 --------
set 6 11 none 0 ---
prm 6 10 -- 11 1 -
in 6 0000 0000
out 6 0000 0000
diag 6 ------- -
last 6 1 none
last 6 2 none
slave 7 WaitCfg 1 1 6 --------
set 7 11 none 0 ---
prm 7 10 -- 11 1 -
in 7 0000 0000
out 7 0000 0000
diag 7 ------- -
last 7 1 none
last 7 2 none
slave 8 WaitPrm none 0 off ------p-
set 8 11 none 0 ---
prm 8 none
in 8 0000 0000
out 8 0000 0000
diag 8 ------- -
last 8 1 none
last 8 2 none
"""
GOES_ON = """\
7 req 1 680c0c6888814d3d3e8802050b80a1018d16 | WaitPrm none | reply 100108020b16 Busy
8 req 1 68070768ff81463a3e00003e16 | none | spread 7:NotActive 5:Done
9 tick 6 | none | released 6 7
10 req 1 68070768ff81463a3e00003e16 | none | spread 5:Done
11 req 2 68070768ff82463a3e00003f16 | none | spread
12 halt | none | released 5
"""


def test_line_that_goes_on_from_a_head(run, tmp_path):
    """The lists are in the order of the locks, not in that of the addresses; the busy mark and the watchdogs go on."""
    assert verdict(run, tmp_path, SIX_ENTRIES + GOES_ON, slaves=(5, 6, 7, 8)) == ended("legal 12")
    before = text_of([
        "rack-audit 3 line 1",
        "1 req 1 680c0c6887814d3d3e8802050b80a1018c16 | WaitPrm none | reply e5 Done",
        "2 req 2 680c0c6886824d3d3e8802050b80a1018c16 | WaitPrm none | reply e5 Done",
        "3 req 1 680c0c6885814d3d3e8002050b80a1018216 | WaitPrm none | reply e5 Done",
        "4 req 1 6807076885814d3e3e21110116 | WaitCfg 1 | reply e5 Done",
        "5 busy 8 61 on | WaitPrm none | done",
        "6 tick 4 | none | released",
    ])
    assert verdict(run, tmp_path, before + SIX_ENTRIES + GOES_ON, slaves=(5, 6, 7, 8)) == ended("legal 12")
