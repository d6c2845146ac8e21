"""Texts that are not legal: `rackd judge` judges them to their first wrong row."""
import xml.etree.ElementTree as xml

import pytest

from support.judging import FCB_1, bring_up, exchange

# The finding is at place 6, which is in row 7 of the text: row 1 is its header.
FOUND = """\
place 6 master 1 slave 5 fcb-repeated: the FCB of the request before to this slave, with another telegram
  68 05 05 68 05 01 7d 56 78 51 16
  before 68 05 05 68 05 01 7d 12 34 c9 16
"""
SUMMARY = "findings\n  master 1 fcb-repeated error 1, first at place 6\n"


@pytest.fixture
def text(text_of):
    """A legal text with one finding, in its last entry."""
    return text_of(*bring_up(), exchange(), exchange(b"\x56\x78", fc=FCB_1))


def change(text, change_rows):
    """Changes the rows of the file of a text by a function, which gets them with their LF."""
    rows = text.path.read_text(encoding="ascii").splitlines(keepends=True)
    assert len(rows) == 7
    text.path.write_text("".join(change_rows(rows)), encoding="ascii")


def test_legal(text):
    assert text.judge() == (1, f"{FOUND}{SUMMARY}legal 6\n", "")


def test_bad_row_before_the_finding(text):
    change(text, lambda rows: [*rows[:6], "no row\n", *rows[6:]])
    done = text.judge()
    assert (done.status, done.output) == (1, "findings\nbad line 7\n")


def test_bad_row_behind_the_finding(text):
    change(text, lambda rows: [*rows, "no row\n"])
    done = text.judge()
    assert (done.status, done.output) == (1, f"{FOUND}{SUMMARY}bad line 8\n")


def test_last_row_lacks_its_lf(text):
    change(text, lambda rows: [*rows[:-1], rows[-1][:-1]])
    done = text.judge()
    assert (done.status, done.output) == (1, "findings\nbad line 7\n")
    assert done.errors == f"  row 7 of {text.path}: the text ends within this row, as after a kill\n"


def test_row_is_missing(text):
    change(text, lambda rows: rows[:2] + rows[3:])
    done = text.judge()
    assert (done.status, done.output.splitlines()[-1]) == (1, "not the policy 3")


@pytest.mark.parametrize("change_rows, message", [
    (lambda rows: rows[:2] + rows[3:], "not the policy 3"), (lambda rows: [*rows[:2], "no row\n", *rows[2:]], "bad line 3"),
], ids=["not-the-policy", "bad-line"])
def test_junit_of_a_text_that_is_not_legal(text, change_rows, message):
    """The text is the only test case that fails."""
    change(text, change_rows)
    done = text.judge("--junit")
    suite = xml.fromstring(done.output.encode())
    assert done.status == 1
    assert suite.get("failures") == "1"
    assert suite.find("testcase/failure").get("message") == message
    assert suite.find("testcase[failure]").get("name") == "legal"


def test_empty_text(text):
    text.path.write_text("", encoding="ascii")
    done = text.judge()
    assert (done.status, done.output) == (1, "findings\nbad line 1\n")


def test_no_header(text):
    text.path.write_text("hello\n", encoding="ascii")
    done = text.judge()
    assert (done.status, done.output) == (1, "findings\nbad line 1\n")
    assert done.errors == f'  row 1 of {text.path}: found "hello"\n  expected "rack-audit 2 line 1"\n'


def test_row_that_is_not_utf8(text):
    text.path.write_bytes(b"rack-audit 2 line 1\n\xff\n")
    done = text.judge()
    assert done.status == 2
    assert done.errors.startswith(f"rackd: cannot read {text.path}")


def test_no_file(text):
    text.path.unlink()
    done = text.judge()
    assert (done.status, done.output) == (2, "")
    assert done.errors.startswith(f"rackd: cannot read {text.path}")
