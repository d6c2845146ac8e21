"""What a line answers to the events of its operator.

In these rows `8802050b80a101` are parameters that lock, with a watchdog of 100 ms. 60 is the point of Slave_Diag, and 61 of
Set_Prm.
"""
import pytest

from support.line_rows import LineOfRows, play

TWO = LineOfRows(slaves=(5, 6))
EVENTS = {
    "refused": (TWO._replace(capacity=2), """\
in 9 aa => - | none | refused NoStation
in 5 aa => - | none | refused WrongLength
busy 9 55 on => - | none | refused NoStation
busy 5 55 on => - | none | refused UnknownPoint
diag 9 e - => - | none | refused NoStation
"""),
    "inputs-and-a-diagnosis": (TWO, """\
in 5 aa55 => WaitPrm none | done
show 5 => show 5 WaitPrm none in aa55 out 0000 wd off
diag 5 e 0301ff => WaitPrm none | done
head => in 5 aa55 0000; diag 5 e--u--- 0301ff
"""),
    "a-busy-point": (TWO, """\
busy 5 60 on => WaitPrm none | done
ask 1 5 4d 60 - => WaitPrm none | reply 100105020816 Busy
busy 5 60 off => WaitPrm none | done
ask 1 5 4d 60 - => WaitPrm none | reply 680b0b688185083e3c020500ff80a1af16 Done
"""),
    "the-watchdog-releases": (TWO, """\
ask 1 6 6d 61 8802050b80a101 => WaitPrm none | reply e5 Done
ask 1 5 6d 61 8802050b80a101 => WaitPrm none | reply e5 Done
tick 9 => none | released
owned 1 => owned 6 5
tick 1 => none | released 5 6
owned 1 => owned
"""),
    "a-tick-a-lock-and-a-halt": (TWO, """\
tick 10 => none | released
req 1 680c0c6885815d3d3e8802050b80a1019a16 => WaitPrm none | reply e5 Done
halt => none | released 5
"""),
    "a-halt": (TWO, """\
ask 1 5 6d 61 8802050b80a101 => WaitPrm none | reply e5 Done
halt => none | released 5
halt => - | none | refused Halted
req 1 e5 => - | none | silence Halted
"""),
    "a-halt-at-the-last-place": (TWO._replace(capacity=2), """\
ask 1 5 6d 61 8802050b80a101 => WaitPrm none | reply e5 Done
in 9 - => - | none | refused NoStation
halt => - | none | refused Halted | released 5
tick 1 => - | none | refused Halted
"""),
}


@pytest.mark.parametrize(("line", "rows"), EVENTS.values(), ids=EVENTS)
def test_event(run, tmp_path, line, rows):
    play(run, tmp_path, line, rows)


MASTERS, ADDRESSES = range(16), range(20, 84)


def locks(nth):
    """Returns the rows with which each master M locks the slave at 20 + 4 M + `nth`."""
    row = "ask {} {} 4d 61 8802050b80a101 => WaitPrm none | ack\n"
    return "".join(row.format(master, 20 + 4 * master + nth) for master in MASTERS)


def lists(row):
    """Returns the rows of the list of each master, with what `row` gives for it."""
    return "".join(f"owned {master} => owned{row(master)}\n" for master in MASTERS)


def slaves_of(master):
    """Returns the addresses that a master has locked, as a row of its list has them."""
    return "".join(f" {20 + 4 * master + nth}" for nth in range(4))


def test_release_of_64_slaves(run, tmp_path):
    """One tick releases four slaves of each of 16 masters. Then each list is empty, and the next lock is its first."""
    released = "".join(f" {address}" for address in ADDRESSES)
    rows = "".join(map(locks, range(4))) + lists(slaves_of) + f"tick 10 => none | released{released}\n"
    rows += lists(lambda master: "") + locks(3) + lists(lambda master: f" {23 + 4 * master}")
    play(run, tmp_path, LineOfRows(slaves=tuple(ADDRESSES), masters=tuple(MASTERS)), rows)
