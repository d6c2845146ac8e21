"""A Global_Control to all: which slaves it reaches, what each of them answers, and what it leaves of each.

In these rows `68070768ff81463a3e20005e16` is Sync of master 1, the telegram that ends in `5f16` is Sync of master 2, and the
one that ends in `6016` is Sync of master 1 to the slaves of group 2. `8802050b80a101` are parameters that lock, with a watchdog
of 100 ms; `8002050b80a101` are the same parameters without a watchdog. `a000000b80a101` are parameters that lock with Sync_Req
and without a watchdog. `40000000000000` are parameters that unlock.
"""
import pytest

from support.line_rows import LineOfRows, play

TWO = LineOfRows(slaves=(5, 6))
CONTROLS = {
    "slaves-of-its-sender": (TWO, """\
ask 1 6 4d 61 8802050b80a101 => WaitPrm none | reply e5 Done
ask 1 5 4d 61 8802050b80a101 => WaitPrm none | reply e5 Done
req 1 68070768ff81463a3e20005e16 => none | spread 6:NotActive 5:NotActive
"""),
    "after-an-unlock": (TWO, """\
ask 1 6 4d 61 8802050b80a101 => WaitPrm none | reply e5 Done
ask 1 5 4d 61 8802050b80a101 => WaitPrm none | reply e5 Done
req 1 68070768ff81463a3e20005e16 => none | spread 6:NotActive 5:NotActive
ask 1 6 4d 61 40000000000000 => WaitCfg 1 | reply e5 Done
tick 1 => none | released
req 1 68070768ff81463a3e20005e16 => none | spread 5:NotActive
req 2 68070768ff82463a3e20005f16 => none | spread
"""),
    # Three of four watchdogs run out, so it reaches only the slave that is left.
    "one-of-four-locks-stays": (LineOfRows(slaves=(5, 6, 7, 8)), """\
ask 1 5 6d 61 8802050b80a101 => WaitPrm none | reply e5 Done
ask 1 6 6d 61 8802050b80a101 => WaitPrm none | reply e5 Done
ask 1 7 6d 61 8002050b80a101 => WaitPrm none | reply e5 Done
ask 1 8 6d 61 8802050b80a101 => WaitPrm none | reply e5 Done
owned 1 => owned 5 6 7 8
tick 10 => none | released 5 6 8
owned 1 => owned 7
req 1 68070768ff81463a3e20005e16 => none | spread 7:NotActive
"""),
    "each-slave-judges-by-itself": (TWO, """\
ask 1 5 4d 61 a000000b80a101 => WaitPrm none | reply e5 Done
ask 1 6 4d 61 a000000b80a101 => WaitPrm none | reply e5 Done
ask 1 6 4d 62 2111 => WaitCfg 1 | reply e5 Done
req 1 68070768ff81463a3e20026016 => none | spread 5:NotActive 6:NotSelected
head => slave 5 WaitCfg 1 1 off --------; prm 5 off s- 11 1 -; \
slave 6 DataExch 1 2 off --------; set 6 11 0 0 ---; prm 6 off s- 11 1 -
req 1 68070768ff81463a3e20005e16 => none | spread 5:NotActive 6:Done
head => slave 5 WaitCfg 1 1 off --------; prm 5 off s- 11 1 -; \
slave 6 DataExch 1 2 off --------; set 6 11 0 0 s--; prm 6 off s- 11 1 -
"""),
    "slaves-of-another-master-stay": (TWO, """\
ask 1 5 4d 61 a000000b80a101 => WaitPrm none | reply e5 Done
ask 2 6 4d 61 a000000b80a101 => WaitPrm none | reply e5 Done
ask 2 6 4d 62 2111 => WaitCfg 2 | reply e5 Done
req 1 68070768ff81463a3e20005e16 => none | spread 5:NotActive
head => slave 5 WaitCfg 1 1 off --------; prm 5 off s- 11 1 -; \
slave 6 DataExch 2 2 off --------; set 6 11 0 0 ---; prm 6 off s- 11 1 -
req 2 68070768ff82463a3e20005f16 => none | spread 6:Done
head => slave 5 WaitCfg 1 1 off --------; prm 5 off s- 11 1 -; \
slave 6 DataExch 2 2 off --------; set 6 11 0 0 s--; prm 6 off s- 11 1 -
"""),
    # The groups 00, ff, 01, 80 and 42, and the selections 00, 81 and 02.
    "groups": (LineOfRows(slaves=(5, 6, 7, 8, 9)), """\
ask 1 5 4d 61 8000000b80a100 => WaitPrm none | ack
ask 1 5 4d 62 2111 => WaitCfg 1 | ack
ask 1 6 4d 61 8000000b80a1ff => WaitPrm none | ack
ask 1 6 4d 62 2111 => WaitCfg 1 | ack
ask 1 7 4d 61 8000000b80a101 => WaitPrm none | ack
ask 1 7 4d 62 2111 => WaitCfg 1 | ack
ask 1 8 4d 61 8000000b80a180 => WaitPrm none | ack
ask 1 8 4d 62 2111 => WaitCfg 1 | ack
ask 1 9 4d 61 8000000b80a142 => WaitPrm none | ack
ask 1 9 4d 62 2111 => WaitCfg 1 | ack
ask 1 127 46 58 2000 => none | spread 5:Done 6:Done 7:Done 8:Done 9:Done
ask 1 127 46 58 3e81 => none | spread 5:NotSelected 6:Done 7:Done 8:Done 9:NotSelected
ask 1 127 46 58 c102 => none | spread 5:NotSelected 6:Done 7:NotSelected 8:NotSelected 9:Done
"""),
}


@pytest.mark.parametrize(("line", "rows"), CONTROLS.values(), ids=CONTROLS)
def test_control_of_all(run, tmp_path, line, rows):
    play(run, tmp_path, line, rows)
