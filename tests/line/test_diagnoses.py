"""The octets of a diagnosis, and when one is due.

In these rows `b802050b80a101` are parameters that lock, with a watchdog of 100 ms, Sync_Req and Freeze_Req; 60 is the point of
Slave_Diag. Master 1 holds slave 5, and master 2 reads its diagnosis, so that it stays unread.
"""
import pytest

from support.line_rows import LineOfRows, play

WITHOUT_MODES = LineOfRows(keys=(("sync", False), ("freeze", False)))
DIAGNOSES = {
    "a-new-slave": (LineOfRows(), """\
ask 2 5 4d 60 - => WaitPrm none | low 020500ff80a1
"""),
    "each-state-with-a-watchdog": (LineOfRows(), """\
ask 1 5 4d 61 8802050b80a101 => WaitPrm none | ack
ask 2 5 4d 60 - => WaitCfg 1 | low 020c000180a1
ask 1 5 4d 62 2111 => WaitCfg 1 | ack
ask 2 5 4d 60 - => DataExch 1 | low 000c000180a1
"""),
    "prm-fault": (LineOfRows(), """\
ask 1 5 4d 61 8802050b80a201 => WaitPrm none | ack
ask 2 5 4d 60 - => WaitPrm none | low 420500ff80a1
"""),
    "cfg-fault": (LineOfRows(), """\
ask 1 5 4d 61 8002050b80a101 => WaitPrm none | ack
ask 2 5 4d 60 - => WaitCfg 1 | low 0204000180a1
ask 1 5 4d 62 21 => WaitCfg 1 | ack
ask 2 5 4d 60 - => WaitPrm none | low 060500ff80a1
"""),
    "not-supported": (WITHOUT_MODES, """\
ask 1 5 4d 61 a802050b80a101 => WaitPrm none | ack
ask 2 5 4d 60 - => WaitPrm none | low 520500ff80a1
"""),
    "a-report-in-data-exchange": (LineOfRows(), """\
ask 1 5 4d 61 8802050b80a101 => WaitPrm none | ack
ask 1 5 4d 62 2111 => WaitCfg 1 | ack
diag 5 e 0301ff => DataExch 1 | done
ask 2 5 4d 60 - => DataExch 1 | low 080c000180a10301ff
ask 1 5 4d default 0000 => DataExch 1 | high 0000
"""),
    # WD_On, Freeze_Mode, Sync_Mode, Ext_Diag, Stat_Diag and Ext_Diag_Overflow.
    "all-bits-of-a-held-slave": (LineOfRows(), """\
ask 1 5 4d 61 b802050b80a101 => WaitPrm none | ack
ask 1 5 4d 62 2111 => WaitCfg 1 | ack
ask 1 5 46 58 0800 => DataExch 1 | done
ask 2 5 4d 60 - => DataExch 1 | low 001c000180a1
ask 1 5 46 58 2000 => DataExch 1 | done
ask 2 5 4d 60 - => DataExch 1 | low 003c000180a1
diag 5 eso - => DataExch 1 | done
ask 2 5 4d 60 - => DataExch 1 | low 083e800180a1
"""),
    # Prm_Fault, Not_Supported and what the application reported.
    "all-bits-of-a-free-slave": (WITHOUT_MODES, """\
diag 5 eso 0301ff => WaitPrm none | done
ask 1 5 4d 61 b802050b80a101 => WaitPrm none | ack
ask 2 5 4d 60 - => WaitPrm none | low 5a0780ff80a10301ff
"""),
    "the-longest": (LineOfRows(), f"""\
diag 5 o {"42" * 238} => WaitPrm none | done
ask 2 5 4d 60 - => WaitPrm none | low 020580ff80a1{"42" * 238}
"""),
    # A slave without data has SC for a diagnosis that is not due, and SD1 with FC 0A for one that is.
    "due-until-it-is-read": (LineOfRows(cfg="20", inputs="-", outputs="00"), """\
ask 1 5 4d 61 8002050b80a101 => WaitPrm none | ack
ask 1 5 4d 62 20 => WaitCfg 1 | ack
ask 1 5 4d default 01 => DataExch 1 | ack
diag 5 e 0301ff => DataExch 1 | done
ask 1 5 4d default 01 => DataExch 1 | high -
ask 1 5 4d 60 - => DataExch 1 | low 0804000180a10301ff
ask 1 5 4d default 01 => DataExch 1 | ack
diag 5 es 0301ff => DataExch 1 | done
ask 1 5 4d 60 - => DataExch 1 | low 0806000180a10301ff
ask 1 5 4d default 01 => DataExch 1 | high -
diag 5 - - => DataExch 1 | done
ask 1 5 4d default 01 => DataExch 1 | high -
ask 1 5 4d 60 - => DataExch 1 | low 0004000180a1
ask 1 5 4d default 01 => DataExch 1 | ack
"""),
}


@pytest.mark.parametrize(("line", "rows"), DIAGNOSES.values(), ids=DIAGNOSES)
def test_diagnosis(run, tmp_path, line, rows):
    play(run, tmp_path, line, rows)
