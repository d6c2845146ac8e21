"""What a line answers to the requests of its masters, and what an audit text has of them.

In these rows `8802050b80a101` are parameters that lock, with a watchdog of 100 ms, and `40000000000000` are parameters that
unlock; `8002050b80a101` lock without a watchdog. 58 is the point of Global_Control, 60 of Slave_Diag, 61 of Set_Prm and 62 of
Chk_Cfg.
"""
import pytest

from support.line_rows import LineOfRows, check, play

EMPTY = LineOfRows(cfg="", inputs="-", outputs="-")
FOUR_SLAVES = EMPTY._replace(slaves=(126, 5, 64, 0))
REQUESTS = {
    "a-new-slave": (EMPTY, """\
req 1 6805056885816d3c3eed16 => WaitPrm none | reply 680b0b688185083e3c020500ff80a1af16 Done
"""),
    "silences": (EMPTY, """\
req 2 6805056885816d3c3eed16 => none | silence ForeignSender
req 1 dc0201 => none | silence Token
req 1 e5 => none | silence NotRequest
req 1 100501000616 => none | silence NotRequest
req 1 100501424816 => none | silence BadFunction
req 1 1085016df316 => none | silence BadExtension
req 1 100501464c16 => WaitPrm none | silence NotActive
req 1 107f0149c916 => none | silence BadBroadcast
req 1 100901495316 => none | silence NoStation
"""),
    "status-and-refused-functions": (EMPTY, """\
req 1 100501494f16 => WaitPrm none | reply 100105000616 Status
req 1 680505688581493c3ec916 => WaitPrm none | reply 100105000616 Status
req 1 100501434916 => WaitPrm none | reply 100105030916 NoService
req 1 100501454b16 => WaitPrm none | reply 100105030916 NoService
req 1 1005014e5416 => WaitPrm none | reply 100105030916 NoService
req 1 1005014f5516 => WaitPrm none | reply 100105030916 NoService
"""),
    "the-halt-at-the-last-place": (EMPTY._replace(capacity=2), """\
req 1 6805056885816d3c3eed16 => WaitPrm none | reply 680b0b688185083e3c020500ff80a1af16 Done
req 1 6805056885816d3c3eed16 => - | none | silence Halted | released
req 1 6805056885816d3c3eed16 => - | none | silence Halted
"""),
    "a-refused-event-takes-no-place": (LineOfRows(capacity=2), """\
req 1 100501494f16 => WaitPrm none | reply 100105000616 Status
in 9 aa => - | none | refused NoStation
req 1 100501494f16 => - | none | silence Halted | released
req 1 100501494f16 => - | none | silence Halted
tick 1 => - | none | refused Halted
"""),
    "a-request-and-a-tick": (LineOfRows(), """\
req 1 100501494f16 => WaitPrm none | reply 100105000616 Status
tick 10 => none | released
"""),
    "a-mark-in-data-exchange": (LineOfRows(), """\
req 1 680c0c6885815d3d3e8802050b80a1019a16 => WaitPrm none | reply e5 Done
req 1 6807076885817d3e3e21113116 => WaitCfg 1 | reply e5 Done
busy 5 default on => DataExch 1 | done
"""),
    # Each of four slaves answers master 2 with its own address. The request names no SSAP.
    "each-slave-by-its-address": (FOUR_SLAVES, """\
req 2 68040468fe026d3ca916 => WaitPrm none | reply 680a0a6802fe083c020500ff80a16b16 Done
req 2 6804046885026d3c3016 => WaitPrm none | reply 680a0a680285083c020500ff80a1f216 Done
req 2 68040468c0026d3c6b16 => WaitPrm none | reply 680a0a6802c0083c020500ff80a12d16 Done
req 2 6804046880026d3c2b16 => WaitPrm none | reply 680a0a680280083c020500ff80a1ed16 Done
"""),
    "a-slave-without-data-is-locked": (EMPTY, """\
ask 1 5 4d 61 8802050b80a101 => WaitPrm none | reply e5 Done
show 5 => show 5 WaitCfg 1 in - out - wd 10
head => slave 5 WaitCfg 1 1 10 --------; prm 5 10 -- 11 1 -
show 6 => refused NoStation
"""),
    "a-wrong-length-stores-nothing": (LineOfRows(), """\
ask 1 5 4d 61 8002050b80a101 => WaitPrm none | reply e5 Done
ask 1 5 4d 62 2111 => WaitCfg 1 | reply e5 Done
req 1 6805056805014d12349916 => DataExch 1 | reply 6805056801050800000e16 Done
req 1 6806066805014d56789abb16 => DataExch 1 | reply 100105010716 Length
show 5 => show 5 DataExch 1 in 0000 out 1234 wd off
head => slave 5 DataExch 1 1 off --------; set 5 11 0 0 ---; prm 5 off -- 11 1 -; out 5 1234 1234
"""),
    "oldest-lock-first": (EMPTY._replace(slaves=(5, 6, 7)), """\
ask 1 6 6d 61 8802050b80a101 => WaitPrm none | reply e5 Done
owned 1 => owned 6
owned 2 => owned
ask 1 5 6d 61 8802050b80a101 => WaitPrm none | reply e5 Done
owned 1 => owned 6 5
owned 2 => owned
ask 2 7 6d 61 8802050b80a101 => WaitPrm none | reply e5 Done
owned 1 => owned 6 5
owned 2 => owned 7
ask 2 6 6d 61 8802050b80a101 => WaitCfg 1 | reply 100206030b16 NotHolder
owned 1 => owned 6 5
owned 2 => owned 7
ask 1 6 6d 61 8802050b80a101 => WaitCfg 1 | reply e5 Done
owned 1 => owned 6 5
owned 2 => owned 7
ask 1 6 6d 61 40000000000000 => WaitCfg 1 | reply e5 Done
owned 1 => owned 5
owned 2 => owned 7
ask 2 6 6d 61 8802050b80a101 => WaitPrm none | reply e5 Done
owned 1 => owned 5
owned 2 => owned 7 6
ask 1 5 6d 61 40000000000000 => WaitCfg 1 | reply e5 Done
owned 1 => owned
owned 2 => owned 7 6
owned 3 => owned
"""),
    "one-of-four-is-unlocked": (EMPTY._replace(slaves=(5, 6, 7, 8)), """\
ask 1 5 4d 61 8802050b80a101 => WaitPrm none | ack
ask 1 6 4d 61 8802050b80a101 => WaitPrm none | ack
ask 1 7 4d 61 8802050b80a101 => WaitPrm none | ack
ask 1 8 4d 61 8802050b80a101 => WaitPrm none | ack
ask 1 6 4d 61 40000000000000 => WaitCfg 1 | ack
owned 1 => owned 5 7 8
owned 2 => owned
ask 2 7 4d 61 8802050b80a101 => WaitCfg 1 | RS NotHolder
ask 1 8 4d 61 40000000000000 => WaitCfg 1 | ack
owned 1 => owned 5 7
ask 1 6 4d 61 8802050b80a101 => WaitPrm none | ack
owned 1 => owned 5 7 6
ask 1 6 4d 61 40000000000000 => WaitCfg 1 | ack
owned 1 => owned 5 7
ask 1 5 4d 61 40000000000000 => WaitCfg 1 | ack
owned 1 => owned 7
ask 1 7 4d 61 40000000000000 => WaitCfg 1 | ack
owned 1 => owned
ask 2 7 4d 61 8802050b80a101 => WaitPrm none | ack
ask 2 5 4d 61 8802050b80a101 => WaitPrm none | ack
owned 1 => owned
owned 2 => owned 7 5
"""),
    "a-global-control-to-one-slave": (EMPTY, """\
ask 1 5 46 58 2000 => WaitPrm none | silence NotActive
ask 1 5 6d 61 8802050b80a101 => WaitPrm none | reply e5 Done
ask 1 5 6d 62 - => WaitCfg 1 | reply e5 Done
ask 1 5 46 58 2000 => DataExch 1 | done
ask 1 5 46 58 2002 => DataExch 1 | silence NotSelected
ask 1 5 6d 58 2000 => DataExch 1 | reply 100105030916 NoService
ask 2 5 46 58 2000 => DataExch 1 | silence NotHolder
"""),
    # The halt is recorded in place of the last request, and releases both slaves, in the order of their addresses.
    "the-halt-releases": (EMPTY._replace(slaves=(5, 6), capacity=4), """\
ask 1 6 6d 61 8802050b80a101 => WaitPrm none | ack
ask 1 5 6d 61 8802050b80a101 => WaitPrm none | ack
owned 1 => owned 6 5
ask 2 5 6d 60 - => WaitCfg 1 | low 020c000180a1
ask 2 5 6d 60 - => - | none | silence Halted | released 5 6
owned 1 => owned
show 6 => show 6 WaitPrm none in - out - wd off
tick 1 => - | none | refused Halted
"""),
    "two-slaves-at-one-line": (LineOfRows(slaves=(7, 126)), """\
req 1 680c0c6887815d3d3e8802050b80a1019c16 => WaitPrm none | reply e5 Done
req 1 680c0c68fe815d3d3e8802050b80a1011316 => WaitPrm none | reply e5 Done
req 1 68070768fe817d3e3e2111aa16 => WaitCfg 1 | reply e5 Done
busy 126 default on => DataExch 1 | done
req 1 68070768ff81463a3e00003e16 => none | spread 7:NotActive 126:Done
"""),
}


@pytest.mark.parametrize(("line", "rows"), REQUESTS.values(), ids=REQUESTS)
def test_request(run, tmp_path, line, rows):
    play(run, tmp_path, line, rows)


def test_octets_and_masters_that_only_an_audit_text_has(run, tmp_path):
    """Octets that are no single frame, and a master that is none of the line: neither comes from a script or a session."""
    check(run, tmp_path, EMPTY, """\
req 2 6805056885816d3c3eed16 => none | silence ForeignSender
req 1 1005 => none | silence NoFrame
req 9 e5 => none | silence NoMaster
req 1 dc0201 => none | silence Token
req 1 - => none | silence NoFrame
req 1 680303680501494f16 => none | silence NoFrame
req 1 100501494f1600 => none | silence NoFrame
req 1 e500 => none | silence NoFrame
req 1 33 => none | silence NoFrame
""")


# What the holder of slave 5 does, and what another master does between its Chk_Cfg and its Data_Exchange.
HOLDER = """\
in 5 aa55 => WaitPrm none | done
req 1 6805056885816d3c3eed16 => WaitPrm none | reply 680b0b688185083e3c020500ff80a1af16 Done
req 1 680c0c6885815d3d3e8802050b80a1019a16 => WaitPrm none | reply e5 Done
req 1 6807076885817d3e3e21113116 => WaitCfg 1 | reply e5 Done
"""
STRANGER = """\
req 2 680c0c6885826d3d3e8802050b80a101ab16 => DataExch 1 | reply 100205030a16 NotHolder
req 2 680c0c6885827d3d3e8802050b80a101bb16 => DataExch 1 | reply 100205030a16 Repeat
req 2 6805056885825d3c3ede16 => DataExch 1 | reply 680b0b688285083e3c000c000180a1b716 Done
"""
EXCHANGE = """\
req 1 6805056805015d1234a916 => DataExch 1 | reply 68050568010508aa550d16 Done
tick 1 => none | released
show 5 => show 5 DataExch 1 in aa55 out 1234 wd 9
head => slave 5 DataExch 1 3 9 --------; set 5 11 0 0 ---; prm 5 10 -- 11 1 -; in 5 aa55 0000; out 5 1234 1234; \
last 5 1 0 68050568010508aa550d16"""
STRANGER_IS_KNOWN = "; last 5 2 0 680b0b688285083e3c000c000180a1b716"


@pytest.mark.parametrize("rows", [
    pytest.param(HOLDER + EXCHANGE, id="alone"),
    pytest.param(HOLDER + STRANGER + EXCHANGE + STRANGER_IS_KNOWN, id="beside-another-master"),
])
def test_holder(run, tmp_path, rows):
    """The holder of a slave gets the same replies with and without another master, and the slave is the same."""
    play(run, tmp_path, LineOfRows(), rows)
