"""Frames as requests and as replies: their forms, addresses, access points and function codes.

The requests are written out octet by octet, not by the package.
"""
import pytest

from support.line_rows import LineOfRows, play

ZEROS = "00" * 245
LOCK = "ask 1 5 4d 61 8002050b80a101 => WaitPrm none | ack\n"
HELD = LOCK + "ask 1 5 4d 62 2111 => WaitCfg 1 | ack\n"
EIGHT = LineOfRows(cfg="27", inputs="-", outputs="00" * 8)
FRAMES = {
    "a-response": (LineOfRows(), """\
req 1 100501000616 => none | silence NotRequest
req 1 68050568050108abcd8616 => none | silence NotRequest
"""),
    # Eight octets of data come as SD3 or as SD2.
    "eight-octets": (EIGHT, """\
ask 1 5 4d 61 8002050b80a101 => WaitPrm none | ack
ask 1 5 4d 62 27 => WaitCfg 1 | ack
req 1 a205014d01020304050607087716 => DataExch 1 | reply e5 Done
head => slave 5 DataExch 1 1 off --------; set 5 11 0 0 ---; prm 5 off -- 11 1 -; out 5 0102030405060708 0102030405060708
req 1 680b0b6805014d00000000000000005316 => DataExch 1 | reply e5 Done
head => slave 5 DataExch 1 1 off --------; set 5 11 0 0 ---; prm 5 off -- 11 1 -
"""),
    "eight-octets-of-inputs": (LineOfRows(cfg="1720", inputs="00" * 8, outputs="00"), """\
ask 1 5 4d 61 8002050b80a101 => WaitPrm none | ack
ask 1 5 4d 62 1720 => WaitCfg 1 | ack
in 5 0102030405060708 => DataExch 1 | done
req 1 6804046805014d015416 => DataExch 1 | reply 680b0b6801050801020304050607083216 Done
"""),
    "the-longest": (LineOfRows(), HELD + f"""\
req 1 68f9f96885016d3d{ZEROS}3016 => DataExch 1 | reply 100105010716 Length
"""),
    # Which access points a request has is said by bit 7 of DA for DSAP, and of SA for SSAP.
    "access-points": (LineOfRows(), HELD + """\
req 1 6805056885814d3c3ecd16 => DataExch 1 | reply 680b0b688185083e3c0004000180a1ae16 Done
req 1 6804046885014d3c0f16 => DataExch 1 | reply 680a0a680185083c0004000180a1f016 Done
req 1 6804046885016d7c6f16 => none | silence BadExtension
req 1 6805056885816d7c3e2d16 => none | silence BadExtension
req 1 6805056885816d3c7e2d16 => none | silence BadExtension
req 1 1085016df316 => none | silence BadExtension
req 1 6804046885816d3caf16 => none | silence BadExtension
"""),
    # Data_Exchange with an SSAP and without a DSAP.
    "a-source-access-point-alone": (LineOfRows(), HELD + """\
in 5 aa55 => DataExch 1 | done
req 1 6806066805814d3e12345716 => DataExch 1 | reply 680606688105083eaa55cb16 Done
show 5 => show 5 DataExch 1 in aa55 out 1234 wd off
"""),
    "replies-without-access-points": (LineOfRows(), HELD + """\
in 5 abcd => DataExch 1 | done
req 1 6805056805014d12349916 => DataExch 1 | reply 68050568010508abcd8616 Done
"""),
    # Data_Exchange without inputs, while a diagnosis is due.
    "high-priority-without-data": (LineOfRows(cfg="20", inputs="-", outputs="00"), """\
ask 1 5 4d 61 8002050b80a101 => WaitPrm none | ack
ask 1 5 4d 62 20 => WaitCfg 1 | ack
diag 5 s - => DataExch 1 | done
req 1 6804046805014d015416 => DataExch 1 | reply 1001050a1016 Done
"""),
    "function-codes": (LineOfRows(), HELD + """\
req 1 100501434916 => DataExch 1 | reply 100105030916 NoService
req 1 100501444a16 => DataExch 1 | silence NoService
req 1 100501454b16 => DataExch 1 | reply 100105030916 NoService
req 1 100501464c16 => DataExch 1 | silence NoService
req 1 100501494f16 => DataExch 1 | reply 100105000616 Status
req 1 1005014c5216 => DataExch 1 | reply 100105010716 Length
req 1 1005014d5316 => DataExch 1 | reply 100105010716 Length
req 1 1005014e5416 => DataExch 1 | reply 100105030916 NoService
req 1 1005014f5516 => DataExch 1 | reply 100105030916 NoService
req 1 100501424816 => none | silence BadFunction
req 1 100501080e16 => none | silence NotRequest
"""),
    # FC FD is 7D with bit 7, which is ignored: SRD high with FCB and FCV. 6D has FCB alone, 5D FCV alone, 4D neither.
    "frame-count-bits": (LineOfRows(), HELD + """\
req 1 6805056805016d1234b916 => DataExch 1 | reply 6805056801050800000e16 Done
head => slave 5 DataExch 1 1 off --------; set 5 11 0 0 ---; prm 5 off -- 11 1 -; out 5 1234 1234; \
last 5 1 1 6805056801050800000e16
req 1 680505680501fd5678d116 => DataExch 1 | reply 6805056801050800000e16 Repeat
req 1 6805056805015d56783116 => DataExch 1 | reply 6805056801050800000e16 Done
head => slave 5 DataExch 1 1 off --------; set 5 11 0 0 ---; prm 5 off -- 11 1 -; out 5 5678 5678; \
last 5 1 0 6805056801050800000e16
req 1 6805056805014d9abca916 => DataExch 1 | reply 6805056801050800000e16 Done
head => slave 5 DataExch 1 1 off --------; set 5 11 0 0 ---; prm 5 off -- 11 1 -; out 5 9abc 9abc
"""),
    # Replies of 1, 6, 255 and again 1 octets are remembered, each in place of the one before.
    "replies-that-are-remembered": (LineOfRows(cfg="407f4079", inputs="00" * 244, outputs="-"), f"""\
ask 1 5 7d 61 8002050b80a101 => WaitPrm none | reply e5 Done
ask 1 5 7d 61 8002050b80a101 => WaitCfg 1 | reply e5 Repeat
ask 1 5 5d 55 - => WaitCfg 1 | reply 100105030916 NotActive
ask 1 5 5d 55 - => WaitCfg 1 | reply 100105030916 Repeat
ask 1 5 7d 62 407f4079 => WaitCfg 1 | reply e5 Done
ask 1 5 5d 56 - => DataExch 1 | reply 68f9f9688185083e38{"00" * 244}8416 Done
ask 1 5 5d 56 - => DataExch 1 | reply 68f9f9688185083e38{"00" * 244}8416 Repeat
head => slave 5 DataExch 1 1 off --------; set 5 11 0 0 ---; prm 5 off -- 11 1 -; \
last 5 1 0 68f9f9688185083e38{"00" * 244}8416
ask 1 5 7d 61 8002050b80a101 => DataExch 1 | reply e5 Done
ask 1 5 7d 60 - => WaitCfg 1 | reply e5 Repeat
"""),
    # FCV 1 and FCB 0 is a repeat of FCV 1 and FCB 0; FCV 0 and FCB 0 empties the memory, so that the same request is none.
    "the-memory-is-emptied": (LineOfRows(), HELD + """\
req 1 6805056805015d1234a916 => DataExch 1 | reply 6805056801050800000e16 Done
in 5 aa55 => DataExch 1 | done
req 1 6805056805015d1234a916 => DataExch 1 | reply 6805056801050800000e16 Repeat
req 1 6805056805014d56782116 => DataExch 1 | reply 68050568010508aa550d16 Done
req 1 6805056805015d1234a916 => DataExch 1 | reply 68050568010508aa550d16 Done
req 1 6805056805017d1234c916 => DataExch 1 | reply 68050568010508aa550d16 Done
req 1 6805056805017d1234c916 => DataExch 1 | reply 68050568010508aa550d16 Repeat
"""),
}


@pytest.mark.parametrize(("line", "rows"), FRAMES.values(), ids=FRAMES)
def test_frame(run, tmp_path, line, rows):
    play(run, tmp_path, line, rows)
