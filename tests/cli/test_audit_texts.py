"""Audit texts that `check`, `explain`, `judge` and `capture` read: one file or several, of lines that are endless or not."""
import re

import pytest

from support.command_lines import (
    AUDIT, ENTRY, FACTS, LINE_2, NOT_TOML, OTHER_RACK, RACK, TICK, Case, no_file, not_utf_8, table)

EMPTY = '  f/empty is empty\n  expected "rack-audit 2 line 1"\n'
EXPECTED = '  expected "rack-audit 2 line 1"\n'
CRLF = "  it ends in CR LF; the rows of an audit text end in LF only, as 'dos2unix' writes them\n"
NO_HEADER = ('  row 1 of f/served: found "ready"\n' + EXPECTED
             + '  leave out the row "ready", with which the output of \'rackd serve\' begins\n')


def cut_in(row, file, text=""):
    """Returns what is reported of a text that ends within a row of a file."""
    return f"  row {row} of {text}{file}: the text ends within this row, as after a kill\n"


def differs(row, file, written, given):
    """Returns what is reported of a row that is not the policy."""
    return f"  row {row} of {file}: written \"{written.rstrip()}\"\n  the policy gives {given}\n{OTHER_RACK}"


SUMMARY = """\
holds
requests by rule
  master 1    Done                 1
slaves
  slave 5     diagnoses                              1
masters
  master 1    diagnoses                              1
live list
faults
legal 1
"""
ENTRY_GIVEN = f'"{ENTRY.rstrip()}"'
CHECKED = {
    "a-legal-text": Case("check f/rack f/audit", 0, "legal 1\n"),
    "standard-input-is-left": Case("check f/rack f/audit", 0, "legal 1\n", input="x"),
    "an-empty-text": Case("check f/rack f/empty", 1, "bad line 1\n", EMPTY),
    "ready-above-the-text": Case("check f/rack f/served", 1, "bad line 1\n", NO_HEADER),
    "a-text-of-another-line": Case(
        "check f/rack f/other", 1, "bad line 1\n", f'  row 1 of f/other: found "rack-audit 2 line 2"\n{EXPECTED}'),
    "no-last-LF": Case("check f/rack f/short", 1, "bad line 2\n", cut_in(2, "f/short")),
    "no-last-LF-wrong-before": Case("check f/rack f/cut", 1, "not the policy 2\n", differs(2, "f/cut", FACTS, ENTRY_GIVEN)),
    "the-last-of-two-files-ends-within-a-row": Case(
        "check f/rack f/line-1-7.000001.audit f/line-1-7.000002.audit", 1, "bad line 2\n",
        cut_in(2, "f/line-1-7.000002.audit", "the text, in ")),
    "CR-LF": Case(
        "check f/rack f/crlf", 1, "bad line 1\n", f'  row 1 of f/crlf: found "rack-audit 2 line 1\\r"\n{EXPECTED}{CRLF}'),
    "other-facts": Case("check f/rack f/facts", 1, "not the policy 2\n", differs(2, "f/facts", FACTS, ENTRY_GIVEN)),
    "a-file-that-is-no-rack": Case("check f/script f/audit", 2, "", NOT_TOML),
    "the-rack-comes-before-the-text": Case("check f/script f/empty", 2, "", NOT_TOML),
    "an-endless-line": Case("check f/rack f/endless", 0, "legal 1\n"),
    "the-header-of-an-endless-line": Case("check f/rack f/header f/empty", 0, "legal 0\n"),
    "a-version-that-there-is-not": Case(
        "check f/rack f/later", 1, "bad line 1\n", f'  row 1 of f/later: found "rack-audit 4 line 1"\n{EXPECTED}'),
    # A line of two places answers the second event as its last one, and an endless line does not.
    "an-endless-line-goes-on-at-its-last-place": Case("check f/two-places f/endless-beyond", 0, "legal 2\n"),
    "an-ordinary-line-does-not": Case(
        "check f/two-places f/ordinary-beyond", 1, "not the policy 3\n",
        differs(3, "f/ordinary-beyond", TICK, '"2 halt | none | released"')),
    "an-ordinary-line-halts-at-its-last-place": Case("check f/two-places f/ordinary-halted", 0, "legal 2\n"),
    "an-endless-line-is-halted-by-its-operator-alone": Case(
        "check f/two-places f/endless-halted", 1, "not the policy 4\n",
        differs(4, "f/endless-halted", TICK.replace("2", "3"), "no entry there")),
}
EXPLAINED = {
    "options-before-and-behind-the-files": Case("explain --summary f/rack f/audit --slave 5", 0, SUMMARY),
    "a-slave-that-the-line-lacks": Case("explain f/rack f/audit --slave 0", 2, "", "rackd: the line has no slave 0\n"),
    "a-slave-that-is-a-master": Case("explain f/rack f/audit --slave 1", 2, "", "rackd: the line has no slave 1\n"),
    "a-master-that-is-a-slave": Case("explain f/rack f/audit --master 5", 2, "", "rackd: the line has no master 5\n"),
    "neither-slave-nor-master": Case("explain f/rack f/audit --slave 9 --master 9", 2, "", "rackd: the line has no slave 9\n"),
    "a-slave-and-no-header": Case("explain f/rack f/empty --slave 9", 1, "bad line 1\n", EMPTY),
    "a-slave-and-a-file-that-is-no-rack": Case("explain f/script f/audit --slave 9", 2, "", NOT_TOML),
    "nothing-to-explain": Case("explain f/rack f/empty", 1, "bad line 1\n", EMPTY),
    "ready-above-the-text": Case("explain f/rack f/served", 1, "bad line 1\n", NO_HEADER),
    "a-file-that-is-no-rack": Case("explain f/script f/audit", 2, "", NOT_TOML),
    "no-last-LF": Case(
        "explain f/rack f/short --summary", 1,
        "holds\nrequests by rule\nslaves\nmasters\nlive list\nfaults\nbad line 2\n", cut_in(2, "f/short")),
}


@table(CHECKED)
def test_check(run, files, case):
    assert run(*case.words.split(), cwd=files, input=case.input) == case.ended


@table(EXPLAINED)
def test_explain(run, files, case):
    assert run(*case.words.split(), cwd=files) == case.ended


# What `explain`, `judge` and `capture` report of texts that are not legal, as `check` does.
REASONS = {
    "empty": ("f/empty", EMPTY),
    "crlf": ("f/crlf", f'  row 1 of f/crlf: found "rack-audit 2 line 1\\r"\n{EXPECTED}{CRLF}'),
    "another-line": ("f/other", f'  row 1 of f/other: found "rack-audit 2 line 2"\n{EXPECTED}'),
    "another-rack": ("f/facts", differs(2, "f/facts", FACTS, ENTRY_GIVEN)),
    "ready": ("f/served", NO_HEADER),
}


@pytest.mark.parametrize("word", ["check", "explain", "judge", "capture"])
@pytest.mark.parametrize(("name", "reason"), REASONS.values(), ids=REASONS)
def test_reason(run, files, word, name, reason):
    status, _, errors = run(word, "f/rack", name, cwd=files)
    assert (status, errors) == (1, reason)


def test_row_that_is_badly_formed(run, files):
    """A row behind the header is shown as it is."""
    (files / "f/bad").write_text(f"{AUDIT}2 tick x | none | released\n", encoding="utf-8")
    reason = '  row 3 of f/bad: found "2 tick x | none | released"\n  the row is badly formed\n'
    assert run("check", "f/rack", "f/bad", cwd=files) == (1, "bad line 3\n", reason)


def test_text_of_a_rack_with_two_lines(run, files):
    (files / "f/two").write_text(f"{RACK}{LINE_2}", encoding="utf-8")
    (files / "f/third").write_text(AUDIT.replace("line 1", "line 3"), encoding="utf-8")
    reason = ('  row 1 of f/third: found "rack-audit 2 line 3"\n'
              '  expected "rack-audit 2 line 1", or the header of another line of the rack\n')
    assert run("check", "f/two", "f/third", cwd=files) == (1, "bad line 1\n", reason)


def test_judge_of_a_legal_text_reports_no_reason(run, files):
    """Status 1 of judge may come from a rule that was broken; then nothing is reported of the text."""
    repeated = ENTRY + ENTRY.replace("1 req", "2 req", 1)
    (files / "f/broken").write_text(f"rack-audit 2 line 1\n{repeated}", encoding="utf-8")
    _, _, errors = run("judge", "f/rack", "f/broken", cwd=files)
    assert errors == ""


def test_judge_of_a_text_without_its_last_lf(run, files):
    assert run("judge", "f/rack", "f/short", cwd=files) == (1, "findings\nbad line 2\n", cut_in(2, "f/short"))


def test_capture_of_a_text_without_its_last_lf(run, files):
    """The capture has its section header, and what is wrong is reported."""
    status, output, errors = run("capture", "f/rack", "f/short", cwd=files)
    assert (status, errors) == (1, cut_in(2, "f/short"))
    assert output.startswith("\n\r\r\n")


FIRST, SECOND = "line-1-7.000001.audit", "line-1-7.000002.audit"
# The files before the one that belongs to another text, and the name of the file whose text is meant.
ANOTHER = {
    "check": (f"check f/rack f/{FIRST} f/{SECOND}", FIRST),
    "explain": (f"explain f/rack f/{FIRST} f/{SECOND}", FIRST),
    "judge": (f"judge f/rack f/{FIRST} f/{SECOND}", FIRST),
    "capture": (f"capture f/rack f/{FIRST}", FIRST),
    "than-the-second-file": (f"check f/rack f/audit f/{SECOND}", SECOND),
}


@pytest.mark.parametrize("other", ["line-1-8.000001.audit", "line-1-8.audit", "line-2-7.000002.audit"])
@pytest.mark.parametrize(("words", "first"), ANOTHER.values(), ids=ANOTHER)
def test_file_of_another_text(run, files, words, first, other):
    cause = f"  it belongs to another text than {first}; give the files of one text\n"
    assert run(*words.split(), f"f/{other}", cwd=files) == (2, "", f"rackd: cannot read f/{other}\n{cause}")


@pytest.fixture
def day(top, files):
    """The audit text of the day of a line in three files; returns the number of its rows, and its explanation."""
    text = (top / "examples/day-of-a-line.audit").read_text(encoding="utf-8")
    rows = text.splitlines(keepends=True)
    for number, part in enumerate([rows[:1], rows[1:-3], rows[-3:]], 1):
        (files / f"f/part-{number}").write_text("".join(part), encoding="utf-8")
    (files / "f/day.toml").write_bytes((top / "examples/day-of-a-line-rack.toml").read_bytes())
    (files / "f/day").write_text(text.replace("rack-audit 2", "rack-audit 3", 1), encoding="utf-8")
    return len(rows), (top / "examples/day-of-a-line.explained").read_text(encoding="utf-8")


def test_check_of_three_files(run, files, day):
    rows, _ = day
    assert run("check", "f/day.toml", "f/part-1", "f/part-2", "f/part-3", cwd=files) == (0, f"legal {rows - 1}\n", "")


def test_explain_three_files(run, files, day):
    _, explained = day
    assert run("explain", "f/day.toml", "f/part-1", "f/part-2", "f/part-3", cwd=files) == (0, explained, "")


def test_explain_with_an_option_behind_three_files(run, files, day):
    """The summary is all from the row `holds` on."""
    _, explained = day
    summary = re.search("^holds\n.*", explained, re.MULTILINE | re.DOTALL).group()
    assert run("explain", "f/day.toml", "f/part-1", "f/part-2", "f/part-3", "--summary", cwd=files) == (0, summary, "")


def test_explain_a_text_of_an_endless_line(run, files, day):
    _, explained = day
    assert run("explain", "f/day.toml", "f/day", cwd=files) == (0, explained, "")


def test_check_without_the_second_of_three_files(run, files, day):
    status, output, errors = run("check", "f/day.toml", "f/part-1", "f/part-3", cwd=files)
    assert (status, output) == (1, "not the policy 2\n")
    assert errors.endswith(OTHER_RACK)


@pytest.mark.parametrize(("names", "ended"), [
    pytest.param("f/part-2 f/part-1 f/part-3", (1, "bad line 1\n", None), id="files-in-another-order"),
    pytest.param("f/part-1 f/none", (2, "", no_file("f/none")), id="no-third-file"),
    pytest.param("f/part-1 f/latin", (2, "", not_utf_8("f/latin")), id="a-third-file-that-is-not-UTF-8"),
])
def test_check_of_wrong_files(run, files, day, names, ended):
    status, output, errors = run("check", "f/day.toml", *names.split(), cwd=files)
    assert (status, output) == ended[:2]
    assert errors == ended[2] or ended[2] is None
