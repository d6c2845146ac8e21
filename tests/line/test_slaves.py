"""What a slave does with the requests of its holder and the events of its device: what it answers, and what it is then.

In these rows `8802050b80a101` are parameters that lock, with a watchdog of 2 times 5 units of 10 ms, min TSDR 11 and group 1.
`b802050b80a101` are the same parameters with Sync_Req and Freeze_Req. `2111` is the configuration of the slave. 56 is the point
of RD_Inp, 57 of RD_Outp, 58 of Global_Control, 59 of Get_Cfg, 60 of Slave_Diag, 61 of Set_Prm, 62 of Chk_Cfg.
"""
import pytest

from support.line_rows import LineOfRows, play

# A slave that master 1 locked and configured, and with which it exchanged data: inputs AA 55, outputs 12 34.
EXCHANGING = """\
in 5 aa55 => WaitPrm none | done
ask 1 5 4d 61 8802050b80a101 => WaitPrm none | ack
ask 1 5 4d 62 2111 => WaitCfg 1 | ack
ask 1 5 4d default 1234 => DataExch 1 | low aa55
"""
# The same with Sync_Req and Freeze_Req.
WITH_MODES = EXCHANGING.replace("8802", "b802")
ONE = LineOfRows()
# A fail-safe slave with two configurations: the second has one octet of inputs and one of outputs.
TWO = LineOfRows(cfg=["2111", "2010"], keys=(("failsafe", True),))
SLAVES = {
    "set-prm-locks": (ONE, """\
head => slave 5 WaitPrm none 0 off --------; set 5 11 none 0 ---; prm 5 none
tick 1 => none | released
ask 1 5 4d 61 8802050b80a101 => WaitPrm none | ack
head => slave 5 WaitCfg 1 2 10 --------; set 5 11 none 0 ---; prm 5 10 -- 11 1 -
tick 4 => none | released
ask 1 5 4d 62 2111 => WaitCfg 1 | ack
head => slave 5 DataExch 1 2 10 --------; set 5 11 0 0 ---; prm 5 10 -- 11 1 -
ask 1 5 4d 61 8000000c80a101 => DataExch 1 | ack
head => slave 5 WaitCfg 1 2 off --------; set 5 12 none 0 ---; prm 5 off -- 12 1 -
ask 1 5 4d 61 8000000080a101 => WaitCfg 1 | ack
head => slave 5 WaitCfg 1 2 off --------; set 5 12 none 0 ---; prm 5 off -- 0 1 -
"""),
    "first-data-exchange": (ONE, EXCHANGING + """\
ask 1 5 4d 57 - => DataExch 1 | low 1234
ask 1 5 4d 56 - => DataExch 1 | low aa55
ask 1 5 4d 59 - => DataExch 1 | low 2111
head => slave 5 DataExch 1 2 10 --------; set 5 11 0 0 ---; prm 5 10 -- 11 1 -; in 5 aa55 0000; out 5 1234 1234
"""),
    "sync-and-unsync": (ONE, WITH_MODES + """\
ask 1 5 46 58 2000 => DataExch 1 | done
ask 1 5 4d default 5678 => DataExch 1 | low aa55
ask 1 5 4d 57 - => DataExch 1 | low 1234
head => slave 5 DataExch 1 2 10 --------; set 5 11 0 0 s--; prm 5 10 sf 11 1 -; in 5 aa55 0000; out 5 1234 5678
ask 1 5 46 58 1000 => DataExch 1 | done
ask 1 5 4d 57 - => DataExch 1 | low 5678
head => slave 5 DataExch 1 2 10 --------; set 5 11 0 0 ---; prm 5 10 sf 11 1 -; in 5 aa55 0000; out 5 5678 5678
ask 1 5 46 58 0200 => DataExch 1 | done
ask 1 5 4d 57 - => DataExch 1 | low 0000
head => slave 5 DataExch 1 2 10 --------; set 5 11 0 0 ---; prm 5 10 sf 11 1 -; in 5 aa55 0000
"""),
    "unsync-goes-before-sync": (ONE, WITH_MODES + """\
ask 1 5 46 58 2000 => DataExch 1 | done
ask 1 5 4d default 5678 => DataExch 1 | low aa55
ask 1 5 46 58 3000 => DataExch 1 | done
ask 1 5 4d 57 - => DataExch 1 | low 5678
head => slave 5 DataExch 1 2 10 --------; set 5 11 0 0 ---; prm 5 10 sf 11 1 -; in 5 aa55 0000; out 5 5678 5678
"""),
    "freeze-and-unfreeze": (ONE, WITH_MODES + """\
ask 1 5 46 58 0800 => DataExch 1 | done
in 5 0102 => DataExch 1 | done
ask 1 5 4d 56 - => DataExch 1 | low aa55
show 5 => show 5 DataExch 1 in 0102 out 1234 wd 10
head => slave 5 DataExch 1 2 10 --------; set 5 11 0 0 -f-; prm 5 10 sf 11 1 -; in 5 0102 aa55; out 5 1234 1234
ask 1 5 46 58 0400 => DataExch 1 | done
ask 1 5 4d 56 - => DataExch 1 | low 0102
"""),
    "unfreeze-goes-before-freeze": (ONE, WITH_MODES + """\
ask 1 5 46 58 0800 => DataExch 1 | done
in 5 0102 => DataExch 1 | done
ask 1 5 4d 56 - => DataExch 1 | low aa55
ask 1 5 46 58 0c00 => DataExch 1 | done
ask 1 5 4d 56 - => DataExch 1 | low 0102
head => slave 5 DataExch 1 2 10 --------; set 5 11 0 0 ---; prm 5 10 sf 11 1 -; in 5 0102 aa55; out 5 1234 1234
"""),
    "clear-data-comes-first": (ONE, WITH_MODES + """\
ask 1 5 46 58 2200 => DataExch 1 | done
ask 1 5 4d 57 - => DataExch 1 | low 0000
head => slave 5 DataExch 1 2 10 --------; set 5 11 0 0 s--; prm 5 10 sf 11 1 -; in 5 aa55 0000
"""),
    "a-control-gives-the-watchdog-its-full-time": (ONE, WITH_MODES + """\
tick 9 => none | released
show 5 => show 5 DataExch 1 in aa55 out 1234 wd 1
ask 1 5 46 58 0000 => DataExch 1 | done
head => slave 5 DataExch 1 2 10 --------; set 5 11 0 0 ---; prm 5 10 sf 11 1 -; in 5 aa55 0000; out 5 1234 1234
tick 9 => none | released
ask 1 5 46 58 0001 => DataExch 1 | done
head => slave 5 DataExch 1 2 10 --------; set 5 11 0 0 ---; prm 5 10 sf 11 1 -; in 5 aa55 0000; out 5 1234 1234
"""),
    "all-commands-in-one-octet": (ONE, WITH_MODES.replace("80a101", "80a181") + """\
ask 1 5 46 58 c100 => DataExch 1 | done
head => slave 5 DataExch 1 2 10 --------; set 5 11 0 0 ---; prm 5 10 sf 11 129 -; in 5 aa55 0000; out 5 1234 1234
ask 1 5 46 58 2800 => DataExch 1 | done
in 5 0102 => DataExch 1 | done
ask 1 5 4d default 5678 => DataExch 1 | low aa55
head => slave 5 DataExch 1 2 10 --------; set 5 11 0 0 sf-; prm 5 10 sf 11 129 -; in 5 0102 aa55; out 5 1234 5678
ask 1 5 46 58 3e81 => DataExch 1 | done
head => slave 5 DataExch 1 2 10 --------; set 5 11 0 0 ---; prm 5 10 sf 11 129 -; in 5 0102 aa55
"""),
    "modes-that-were-not-asked-for": (ONE, EXCHANGING + """\
ask 1 5 46 58 2000 => DataExch 1 | done
ask 1 5 4d default 5678 => DataExch 1 | low aa55
ask 1 5 4d 57 - => DataExch 1 | low 5678
ask 1 5 46 58 0800 => DataExch 1 | done
in 5 0102 => DataExch 1 | done
ask 1 5 4d 56 - => DataExch 1 | low 0102
head => slave 5 DataExch 1 2 10 --------; set 5 11 0 0 ---; prm 5 10 -- 11 1 -; in 5 0102 0000; out 5 5678 5678
"""),
    "the-watchdog-releases": (ONE, EXCHANGING + """\
tick 9 => none | released
head => slave 5 DataExch 1 2 1 --------; set 5 11 0 0 ---; prm 5 10 -- 11 1 -; in 5 aa55 0000; out 5 1234 1234
ask 1 5 46 58 0000 => DataExch 1 | done
show 5 => show 5 DataExch 1 in aa55 out 1234 wd 10
tick 10 => none | released 5
head => slave 5 WaitPrm none 0 off --------; set 5 11 none 0 ---; prm 5 none; in 5 aa55 0000
tick 10 => none | released
"""),
    "a-wrong-ident-number": (ONE, EXCHANGING + """\
ask 1 5 4d 61 8802050b80a201 => DataExch 1 | ack
ask 1 5 4d 60 - => WaitPrm none | low 420500ff80a1
"""),
    "a-wrong-configuration": (ONE, """\
ask 1 5 4d 61 8802050b80a101 => WaitPrm none | ack
ask 1 5 4d 62 2100 => WaitCfg 1 | ack
ask 1 5 4d 60 - => WaitPrm none | low 060500ff80a1
"""),
    "an-unlock-releases": (ONE, EXCHANGING + """\
ask 1 5 4d 61 40000000000000 => DataExch 1 | ack
head => slave 5 WaitPrm none 0 off --------; in 5 aa55 0000
"""),
    "a-diagnosis-is-due-until-its-holder-reads-it": (ONE, EXCHANGING + """\
diag 5 e 0301ff => DataExch 1 | done
ask 1 5 4d default 1234 => DataExch 1 | high aa55
ask 2 5 4d 60 - => DataExch 1 | low 080c000180a10301ff
ask 1 5 4d default 1234 => DataExch 1 | high aa55
ask 1 5 4d 60 - => DataExch 1 | low 080c000180a10301ff
ask 1 5 4d default 1234 => DataExch 1 | low aa55
"""),
    "a-frame-memory-outlasts-a-release": (ONE, """\
in 5 aa55 => WaitPrm none | done
ask 1 5 4d 61 8802050b80a101 => WaitPrm none | ack
ask 1 5 4d 62 2111 => WaitCfg 1 | ack
ask 1 5 5d default 1234 => DataExch 1 | low aa55
tick 10 => none | released 5
req 1 6805056805015d1234a916 => WaitPrm none | reply 68050568010508aa550d16 Repeat
head => in 5 aa55 0000; last 5 1 0 68050568010508aa550d16
"""),
    "a-busy-mark-outlasts-a-release": (ONE, """\
in 5 aa => - | none | refused WrongLength
busy 5 55 on => - | none | refused UnknownPoint
ask 1 5 4d 61 8802050b80a101 => WaitPrm none | ack
busy 5 61 on => WaitCfg 1 | done
head => slave 5 WaitCfg 1 1 10 ------p-; prm 5 10 -- 11 1 -
tick 10 => none | released 5
head => slave 5 WaitPrm none 0 off ------p-
ask 1 5 4d 61 8802050b80a101 => WaitPrm none | RR Busy
"""),
    "the-second-configuration-is-chosen": (TWO, """\
in 5 aa55 => WaitPrm none | done
ask 1 5 4d 61 8802050b80a101 => WaitPrm none | ack
ask 1 5 4d 59 - => WaitCfg 1 | low 2111
ask 1 5 4d 62 2010 => WaitCfg 1 | ack
head => slave 5 DataExch 1 2 10 --------; set 5 11 1 1 ---; prm 5 10 -- 11 1 -; in 5 aa 00; out 5 00 00
ask 1 5 4d 59 - => DataExch 1 | low 2010
ask 1 5 4d default - => DataExch 1 | UE Length
ask 1 5 4d default 7788 => DataExch 1 | UE Length
in 5 aa55 => - | none | refused WrongLength
in 5 bb => DataExch 1 | done
ask 1 5 4d default 77 => DataExch 1 | low bb
show 5 => show 5 DataExch 1 in bb out 77 wd 10
ask 1 5 4d 61 40000000000000 => DataExch 1 | ack
head => set 5 11 none 1 ---; in 5 bb 00; out 5 00 00
ask 1 5 4d 59 - => WaitPrm none | low 2010
ask 1 5 4d 61 8802050b80a101 => WaitPrm none | ack
ask 1 5 4d 62 2111 => WaitCfg 1 | ack
head => slave 5 DataExch 1 12 10 --------; set 5 11 0 0 ---; prm 5 10 -- 11 1 -; in 5 bb00 0000
"""),
    "another-configuration-ends-the-modes": (TWO, WITH_MODES + """\
ask 1 5 46 58 2000 => DataExch 1 | done
ask 1 5 46 58 0800 => DataExch 1 | done
ask 1 5 4d 62 2111 => DataExch 1 | ack
head => slave 5 DataExch 1 2 10 --------; set 5 11 0 0 sf-; prm 5 10 sf 11 1 -; in 5 aa55 aa55; out 5 1234 1234
ask 1 5 4d 56 - => DataExch 1 | low aa55
ask 1 5 4d 62 2010 => DataExch 1 | ack
head => slave 5 DataExch 1 2 10 --------; set 5 11 1 1 ---; prm 5 10 sf 11 1 -; in 5 aa aa; out 5 00 00
ask 1 5 4d 56 - => DataExch 1 | low aa
ask 1 5 4d 62 2211 => DataExch 1 | ack
ask 1 5 4d 60 - => WaitPrm none | low 060500ff80a1
head => set 5 11 none 1 ---; in 5 aa aa; out 5 00 00; diag 5 -----c- -
"""),
    "a-cleared-slave-takes-none": (TWO, """\
ask 1 5 4d 61 8802050b80a101 => WaitPrm none | ack
ask 1 5 4d 62 2111 => WaitCfg 1 | ack
ask 1 5 4d default 1234 => DataExch 1 | low 0000
ask 1 5 4d default - => DataExch 1 | UE Length
ask 1 5 46 58 0200 => DataExch 1 | done
head => slave 5 DataExch 1 1 10 --------; set 5 11 0 0 --c; prm 5 10 -- 11 1 -
ask 1 5 4d default 12 => DataExch 1 | UE Length
ask 1 5 4d default - => DataExch 1 | low 0000
head => slave 5 DataExch 1 1 10 --------; set 5 11 0 0 --c; prm 5 10 -- 11 1 -
ask 1 5 4d default 1234 => DataExch 1 | low 0000
head => slave 5 DataExch 1 1 10 --------; set 5 11 0 0 ---; prm 5 10 -- 11 1 -; out 5 1234 1234
ask 1 5 4d default - => DataExch 1 | UE Length
"""),
    "clearing-ends": (TWO, """\
ask 1 5 4d 61 8802050b80a101 => WaitPrm none | ack
ask 1 5 4d 62 2111 => WaitCfg 1 | ack
ask 1 5 46 58 0200 => DataExch 1 | done
ask 1 5 4d 62 2111 => DataExch 1 | ack
head => slave 5 DataExch 1 1 10 --------; set 5 11 0 0 --c; prm 5 10 -- 11 1 -
ask 1 5 4d 62 2010 => DataExch 1 | ack
head => slave 5 DataExch 1 1 10 --------; set 5 11 1 1 ---; prm 5 10 -- 11 1 -; in 5 00 00; out 5 00 00
ask 1 5 46 58 0200 => DataExch 1 | done
head => slave 5 DataExch 1 1 10 --------; set 5 11 1 1 --c; prm 5 10 -- 11 1 -; in 5 00 00; out 5 00 00
ask 1 5 4d 61 8802050b80a101 => DataExch 1 | ack
head => slave 5 WaitCfg 1 1 10 --------; set 5 11 none 1 ---; prm 5 10 -- 11 1 -; in 5 00 00; out 5 00 00
ask 1 5 4d 62 2010 => WaitCfg 1 | ack
ask 1 5 46 58 0200 => DataExch 1 | done
tick 10 => none | released 5
head => set 5 11 none 1 ---; in 5 00 00; out 5 00 00
"""),
}


@pytest.mark.parametrize(("line", "rows"), SLAVES.values(), ids=SLAVES)
def test_slave(run, tmp_path, line, rows):
    play(run, tmp_path, line, rows)
