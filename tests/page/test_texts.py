"""Following the audit texts of a line: while they begin, grow, follow each other, have parts, and have wrong rows."""
import pytest

from support.audit_texts import part_name, text_name
from support.watching import (DAY_RACK, ENDLESS_HEADER, AuditFolder, day_rows, notes, places, standing, ticks, wait_for_a_look)

FIRST, SECOND, THIRD = (text_name(1, number) for number in (1, 2, 3))
ROWS = day_rows()
BEGINS = "{} begins; every slave waits for its parameters"


def standing_and_begun(line):
    return standing(line), line["begun"]


def test_folder_and_text_that_are_missing_at_first(watch, two_line_rack, tmp_path):
    watched = watch(two_line_rack, tmp_path / "audit")
    assert standing(watched.line()) == (None, "empty", 0, 0)
    audit = AuditFolder(tmp_path / "audit")
    wait_for_a_look(watched, audit)
    assert standing(watched.line()) == (None, "empty", 0, 0)
    audit.write(FIRST)
    watched.wait_for_line(standing, (FIRST, "empty", 0, 0))
    audit.write(FIRST, ROWS[0])
    watched.wait_for_line(standing, (FIRST, "legal", 0, 0))
    watched.process.kill()
    assert (watched.output.rest(), watched.errors.rest()) == ("", "")


def test_header_that_comes_in_pieces(watch, audit):
    watched = watch(DAY_RACK, audit.path)
    audit.write(FIRST, ROWS[0][:5])
    watched.wait_for_line(standing_and_begun, ((FIRST, "empty", 0, 0), 5))
    audit.write(FIRST, ROWS[0][5:-1])
    watched.wait_for_line(standing_and_begun, ((FIRST, "empty", 0, 0), len(ROWS[0]) - 1))
    audit.write(FIRST, ROWS[0][-1:])
    watched.wait_for_line(standing_and_begun, ((FIRST, "legal", 0, 0), 0))


def test_rows_that_come_in_pieces(watch, audit):
    """A row counts once its LF is there."""
    watched = watch(DAY_RACK, audit.path)
    audit.write(FIRST, ROWS[0])
    for octet in b"".join(ROWS[1:4]):
        audit.write(FIRST, bytes([octet]))
    watched.wait_for_line(standing_and_begun, ((FIRST, "legal", 0, 3), 0))
    for piece, begun in (ROWS[4][:20], 20), (ROWS[4][20:-1], len(ROWS[4]) - 1):
        audit.write(FIRST, piece)
        line = watched.wait_for_line(standing_and_begun, ((FIRST, "legal", 0, 3), begun))
        slave = line["slaves"][0]
        assert (slave["state"], slave["holder"], slave["since"]) == ("Wait_Cfg", 1, 3)
    audit.write(FIRST, ROWS[4][-1:])
    line = watched.wait_for_line(standing_and_begun, ((FIRST, "legal", 0, 4), 0))
    assert line["slaves"][0]["state"] == "Data_Exch"


def test_next_texts(watch, audit):
    """The next text of a line is followed after a halt and after a kill, and a note says so."""
    watched = watch(DAY_RACK, audit.path)
    audit.write(FIRST, *ROWS)
    line = watched.wait_for_line(standing, (FIRST, "legal", 0, 28))
    assert line["halted"] is True
    audit.write(SECOND, *ROWS[:2])
    line = watched.wait_for_line(standing, (SECOND, "legal", 0, 1))
    assert notes(line) == [(SECOND, BEGINS.format(SECOND))]
    assert (line["halted"], line["slaves"][0]["state"]) == (False, "Wait_Prm")
    audit.write(SECOND, ROWS[2][:11])
    audit.write(THIRD, *ROWS[:3])
    line = watched.wait_for_line(standing, (THIRD, "legal", 0, 2))
    assert notes(line)[-1] == (THIRD, f"{BEGINS.format(THIRD)}; {SECOND} ended without a halt")
    assert places(line)[-2:] == [1, 2]


# ---- parts


def test_parts_are_one_text(watch, audit):
    watched = watch(DAY_RACK, audit.path)
    audit.write(part_name(1), ENDLESS_HEADER, *ROWS[1:8])
    line = watched.wait_for_line(standing, (part_name(1), "legal", 0, 7))
    assert line["capacity"] == 4294967295
    audit.write(part_name(2), ROWS[8])
    watched.wait_for_line(standing, (part_name(2), "legal", 0, 8))
    audit.write(part_name(3))
    audit.write(part_name(4), *ROWS[9:])
    line = watched.wait_for_line(standing, (part_name(4), "legal", 0, 28))
    assert notes(line) == []
    next_text = part_name(1, number=2)
    audit.write(next_text, ENDLESS_HEADER, *ROWS[1:3])
    watched.wait_for_line(standing, (next_text, "legal", 0, 2))


def head(place):
    """Returns the head of a part of the rack of ticks after this number of ticks of one unit."""
    rows = (f"rack-audit 3 line 1 from {place}", f"line running {place}", "slave 5 WaitPrm none 0 off --------",
            "set 5 11 none 0 ---", "prm 5 none", "in 5 0000 0000", "out 5 0000 0000", "diag 5 ------- -", "last 5 1 none")
    return ("\n".join(rows) + "\n").encode()


def test_text_that_begins_with_a_later_part(watch, endless_rack, audit):
    audit.write(part_name(3), head(40), ticks(41, 2))
    watched = watch(endless_rack, audit.path)
    line = watched.wait_for_line(standing, (part_name(3), "legal", 0, 42))
    assert (places(line), line["time"]) == ([41, 42], 42)
    audit.write(part_name(4), head(42)[:90])
    watched.wait_for_line(standing, (part_name(4), "legal", 0, 42))
    audit.write(part_name(4), head(42)[90:], ticks(43, 1))
    line = watched.wait_for_line(standing, (part_name(4), "legal", 0, 43))
    assert (places(line), notes(line)) == ([41, 42, 43], [])


def test_parts_that_were_deleted(watch, endless_rack, audit):
    audit.write(part_name(4), head(42), ticks(43, 1))
    watched = watch(endless_rack, audit.path)
    watched.wait_for_line(standing, (part_name(4), "legal", 0, 43))
    audit.write(part_name(7), head(50), ticks(51, 1))
    line = watched.wait_for_line(standing, (part_name(7), "legal", 0, 51))
    assert notes(line) == [(part_name(7), f"{part_name(7)} begins; the parts before it were deleted before they were read")]
    assert places(line) == [43, 51]


def test_heads_that_are_wrong(watch, endless_rack, audit):
    """A head that differs from the line, and one that is badly formed, stop the line; its next text is followed."""
    audit.write(part_name(7), head(50), ticks(51, 1))
    watched = watch(endless_rack, audit.path)
    watched.wait_for_line(standing, (part_name(7), "legal", 0, 51))
    audit.write(part_name(8), head(51).replace(b"WaitPrm", b"WaitCfg"), ticks(52, 1))
    watched.wait_for_line(standing, (part_name(8), "not the policy", 53, 51))
    audit.write(part_name(10), head(60))
    second, third = part_name(2, number=2), part_name(1, number=3)
    audit.write(second, head(5).replace(b"0 off -", b"0 off"))
    line = watched.wait_for_line(standing, (second, "bad line", 3, 0))
    assert notes(line)[-1] == (second, f"{second} begins; {part_name(8)} ended without a halt")
    audit.write(third, ENDLESS_HEADER, ticks(1, 2))
    watched.wait_for_line(standing, (third, "legal", 0, 2))


# ---- wrong rows


def test_row_with_another_answer(watch, audit):
    """The line stays as it was before its first wrong row."""
    watched = watch(DAY_RACK, audit.path)
    audit.write(FIRST, *ROWS[:3])
    before = watched.wait_for_line(standing, (FIRST, "legal", 0, 2))
    audit.write(FIRST, ROWS[3].replace(b"reply e5 Done", b"reply e5 Busy"), ROWS[4])
    line = watched.wait_for_line(standing, (FIRST, "not the policy", 4, 2))
    assert (line["slaves"], line["masters"]) == (before["slaves"], before["masters"])


@pytest.mark.parametrize("text, verdict", [
    pytest.param([ROWS[0], b"x" * 100_000], ("bad line", 2), id="a row without an end"),
    pytest.param([b"rack-audit 2 line 9\n", ROWS[1]], ("bad line", 1), id="the header of another line"),
    pytest.param([ROWS[0], ROWS[2]], ("not the policy", 2), id="a row that is missing"),
    pytest.param([ROWS[0], bytes(range(256)) * 3 + b"\n"], ("bad line", 2), id="a row of all octets"),
    pytest.param([bytes([0xFF, 10]), ROWS[1]], ("bad line", 1), id="a header that is not UTF-8"),
    pytest.param([ROWS[0], b"\n"], ("bad line", 2), id="an empty row"),
])
def test_wrong_rows(watch, audit, text, verdict):
    """A line stops at its first wrong row; its next text is followed."""
    watched = watch(DAY_RACK, audit.path)
    audit.write(FIRST, *text)
    watched.wait_for_line(standing, (FIRST, *verdict, 0))
    audit.write(SECOND, *ROWS[:5])
    watched.wait_for_line(standing, (SECOND, "legal", 0, 4))
