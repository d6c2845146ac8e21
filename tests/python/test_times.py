"""The times of entries by the clock, as they are read from files of times. The expected values are worked out by hand."""
import time

import pytest

from rackd import EntryTime, EntryTimes, RackError
from rackd.times import rows_of_times, times_beside

from support.clients import wait_for

# 20,423 days and 45,001.207 seconds after the beginning of 1970: 2025-12-01 12:30:01.207
NOON = 20_423 * 86_400_000 + 45_001_207


def times_of(*rows):
    """Returns times with these rows."""
    times = EntryTimes()
    for place, milliseconds in rows:
        times.push(place, milliseconds)
    return times


@pytest.mark.parametrize("place, expected", [
    pytest.param(9, None, id="before the first row"),
    pytest.param(10, EntryTime(1000, False), id="first row"),
    # 1000 + 25 * 1 / 10 = 1002.5, 1000 + 25 * 9 / 10 = 1022.5
    pytest.param(11, EntryTime(1002, True), id="half a millisecond is dropped"),
    pytest.param(14, EntryTime(1010, True), id="between"),
    pytest.param(19, EntryTime(1022, True), id="just before a row"),
    pytest.param(20, EntryTime(1025, False), id="a row between others"),
    # 1025 + 75 * 1 / 2 = 1062.5
    pytest.param(21, EntryTime(1062, True), id="between the next rows"),
    pytest.param(22, EntryTime(1100, False), id="last row"),
    pytest.param(23, None, id="behind the last row"),
])
def test_time_of_a_place(place, expected):
    assert times_of((10, 1000), (20, 1025), (22, 1100)).time_of(place) == expected


def test_no_rows():
    assert times_of().time_of(1) is None


def test_clock_that_was_set_back():
    """No time is between two rows of which the second has the earlier time; one is between two rows with the same time."""
    times = times_of((1, 5000), (3, 4000), (5, 4000))
    assert [times.time_of(place) for place in range(1, 6)] == [
        EntryTime(5000, False), None, EntryTime(4000, False), EntryTime(4000, True), EntryTime(4000, False)]


def test_rows_of_two_files():
    """A later file may begin with rows that the file before it has: they are left out."""
    times = times_of((1, 1000), (5, 1004), (5, 9999), (4, 9999), (7, 1008))
    assert [times.time_of(place).milliseconds for place in range(1, 8)] == [1000, 1001, 1002, 1003, 1004, 1006, 1008]


def test_large_numbers():
    """2^64 - 1 - 100 and 2^64 - 1 by places up to 2^32 - 1: the fraction is exact, though no float has these numbers."""
    last, until = 2**32 - 1, 2**64 - 1
    # half of 2^32 - 2 places is 2^31 - 1
    assert times_of((1, until - 100), (last, until)).time_of(1 + 2**31 - 1).milliseconds == until - 50


@pytest.mark.parametrize("milliseconds, interpolated, text", [
    (NOON, False, "12:30:01.207"), (NOON, True, "~12:30:01.207"), (86_400_000, False, "00:00:00.000"),
    (86_399_999, True, "~23:59:59.999"), (3_723_004, False, "01:02:03.004"), (59_050, False, "00:00:59.050"),
])
def test_time_of_day(milliseconds, interpolated, text):
    assert str(EntryTime(milliseconds, interpolated)) == text


@pytest.mark.parametrize("octets, rows", [
    pytest.param(b"", [], id="nothing yet"),
    pytest.param(b"rack-times 1 line 2", [], id="a cut header"),
    pytest.param(b"rack-times 1 line 2\n", [], id="header only"),
    pytest.param(b"rack-times 1 line 2\n1 1764592201207\n230 1764592201306\n", [(1, NOON), (230, NOON + 99)], id="rows"),
    pytest.param(b"rack-times 1 line 2\n1 1764592201207\n230 17645", [(1, NOON)], id="a cut row"),
    pytest.param(b"rack-times 1 line 2\n4294967295 18446744073709551615\n", [(2**32 - 1, 2**64 - 1)], id="largest"),
])
def test_rows(octets, rows):
    assert rows_of_times(2, octets) == rows


@pytest.mark.parametrize("row", [
    "", "1", "1 ", " 1", "0 1", "1 0", "01 1", "1 01", "1  1", "1 1 ", "1 1 1", "1 1\r", "-1 1", "+1 1", "1\t1", "1 x", "\u00b2 1",
    "4294967296 1", "1 18446744073709551616",
])
def test_no_row(row):
    with pytest.raises(RackError, match="^row 3 of the times of line 2: expected a place and its milliseconds since 1970$"):
        rows_of_times(2, f"rack-times 1 line 2\n1 1\n{row}\n2 2\n".encode("latin-1"))


@pytest.mark.parametrize("header", ["rack-times 1 line 1", "rack-times 2 line 2", "rack-times 1 line 02", "rack-audit 1 line 2", ""])
def test_no_header(header):
    with pytest.raises(RackError, match="^row 1 of the times of line 2: expected the header 'rack-times 1 line 2'$"):
        rows_of_times(2, f"{header}\n1 1\n".encode())


@pytest.mark.parametrize("place", [6, 7])
def test_place_that_does_not_ascend(place):
    with pytest.raises(RackError, match="^row 3 of the times of line 2: expected a place above 7$"):
        rows_of_times(2, f"rack-times 1 line 2\n7 1\n{place} 2\n".encode())


def test_files_beside_parts(tmp_path):
    """The files of two parts share a row, and the part between them has no file of times."""
    parts = [tmp_path / f"line-2-1.00000{part}.audit" for part in (1, 2, 3)]
    (tmp_path / "line-2-1.000001.times").write_bytes(b"rack-times 1 line 2\n1 1000\n5 1004\n")
    (tmp_path / "line-2-1.000003.times").write_bytes(b"rack-times 1 line 2\n3 1002\n5 1004\n9 1012\n")
    times = times_beside(2, parts)
    assert times.time_of(2) == EntryTime(1001, True)
    assert times.time_of(7) == EntryTime(1008, True)


def test_journal_of_a_rack(line, master_of):
    """Each entry of a rack has a time between the one before its request and the one behind its reply, as soon as it has a row."""
    master, moments = master_of(line), []
    for _ in range(3):
        moments.append(time.time_ns() // 1_000_000)
        master.slave_diag(5)
        moments.append(time.time_ns() // 1_000_000)
        # so that each entry has a row of its own
        wait_for(lambda: line.journal().time_of(len(moments) // 2))
    journal = line.journal()
    for place in (1, 2, 3):
        recorded = journal.time_of(place)
        assert not recorded.interpolated
        assert moments[2 * place - 2] <= recorded.milliseconds <= moments[2 * place - 1]
    assert journal.time_of(4) is None
