"""The access points of a slave: who may use which in each state, with how many octets, and how a request to them is judged.

In these rows `8802050b80a101` are parameters that lock. Master 1 holds slave 5, unless it is said.
"""
import pytest

from support.line_rows import LineOfRows, play

LOCK = "ask 1 5 4d 61 8002050b80a101 => WaitPrm none | ack\n"
HELD = LOCK + "ask 1 5 4d 62 2111 => WaitCfg 1 | ack\n"
FIVE = LineOfRows(cfg="2410", inputs="00", outputs="0000000000")
HELD_FIVE = HELD.replace("2111", "2410")
WITH_LISTS = LineOfRows(masters=(1, 2, 3), keys=(("lockers", [1, 3]), ("readers", [])))
ONE_LOCKER = LineOfRows(keys=(("lockers", [1]), ("readers", [])))
FAIL_SAFE = LineOfRows(keys=(("failsafe", True),))
# The points of SRD, with the octets of a request that they take. What refuses a request to each of them: of master 1, and of
# master 2, in each state.
ANSWERS = {
    "default": ("0000000000", "RS NotActive", "RS NotActive", "RS NotActive", "RS NotActive", "low 00", "RS NotHolder"),
    "56": ("-", "RS NotActive", "RS NotActive", "RS NotActive", "RS NotActive", "low 00", "low 00"),
    "57": ("-", "RS NotActive", "RS NotActive", "RS NotActive", "RS NotActive", "low 0000000000", "low 0000000000"),
    "58": ("0000", "RS NotActive", "RS NotActive", "RS NotActive", "RS NotActive", "RS NoService", "RS NotHolder"),
    "59": ("-", "low 2410", "low 2410", "low 2410", "low 2410", "low 2410", "low 2410"),
    "60": ("-", "low 020500ff80a1", "low 020500ff80a1", "low 0204000180a1", "low 0204000180a1", "low 0004000180a1",
           "low 0004000180a1"),
    "61": ("0000000b000000", "ack", "ack", "ack", "RS NotHolder", "ack", "RS NotHolder"),
    "62": ("2410", "RS NotActive", "RS NotActive", None, "RS NotHolder", "ack", "RS NotHolder"),
    "0": ("-", *["RS NotActive"] * 6),
    "55": ("-", *["RS NotActive"] * 6),
    "63": ("-", *["RS NotActive"] * 6),
}
STATES = ["WaitPrm none", "WaitCfg 1", "DataExch 1"]


@pytest.mark.parametrize(("octets", "answers"), [
    pytest.param(octets, answers, id=point) for point, (octets, *answers) in ANSWERS.items()])
def test_point_in_each_state(run, tmp_path, request, octets, answers):
    point, rows = request.node.callspec.id, ""
    for number, facts in enumerate(STATES):
        rows += ["", LOCK, "ask 1 5 4d 62 2410 => WaitCfg 1 | ack\n"][number]
        for master, answer in zip((1, 2), answers[2 * number:2 * number + 2]):
            # A right Chk_Cfg in Wait_Cfg is the step to the next state.
            if answer is not None:
                rows += f"ask {master} 5 4d {point} {octets} => {facts} | {answer}\n"
    play(run, tmp_path, FIVE, rows)


# The least and the most octets that points take, and with others a wrong length.
LENGTHS = {
    "default": ["00000000 UE", "0000000000 low 00", "000000000000 UE", "- UE"],
    "56": ["- low 00", "00 UE"],
    "57": ["- low 0000000000", "00 UE"],
    "59": ["- low 2410", "00 UE"],
    "60": ["- low 0004000180a1", "00 UE"],
    "61": ["- ack"],
    "62": ["- ack"],
}


@pytest.mark.parametrize("point", LENGTHS)
def test_lengths(run, tmp_path, point):
    rows = HELD_FIVE
    for row in LENGTHS[point]:
        octets, _, answer = row.partition(" ")
        rows += f"ask 1 5 4d {point} {octets} => DataExch 1 | {answer}{' Length' if answer == 'UE' else ''}\n"
    play(run, tmp_path, FIVE, rows)


def test_longest_requests(run, tmp_path):
    """Set_Prm and Chk_Cfg take 244 octets, and with one access point alone a telegram has 245."""
    zeros = "00" * 244
    play(run, tmp_path, LineOfRows(), HELD + f"""\
ask 1 5 4d 61 {zeros} => DataExch 1 | ack
ask 1 5 4d 62 {zeros} => DataExch 1 | ack
req 1 68f9f96885016d3d{zeros}003016 => WaitPrm none | reply 100105010716 Length
""")


MARKS = {"default": "x", "56": "i", "57": "o", "58": "g", "59": "c", "60": "d", "61": "p", "62": "k"}


def marked(*points):
    """Returns the word for busy points."""
    return "".join(letter if point in points else "-" for point, letter in MARKS.items())


def test_each_mark_is_of_one_point(run, tmp_path):
    rows = ""
    for point in MARKS:
        rows += f"busy 5 {point} on => WaitPrm none | done\nhead => slave 5 WaitPrm none 0 off {marked(point)}\n"
        rows += f"busy 5 {point} off => WaitPrm none | done\nhead => slave 5 WaitPrm none 0 off {marked()}\n"
    play(run, tmp_path, LineOfRows(), rows)


BUSY = {"default": "0000", "56": "-", "57": "-", "59": "-", "60": "-", "61": "0000000b000000", "62": "2111"}


@pytest.mark.parametrize("point", BUSY)
def test_busy_point_refuses_and_no_other(run, tmp_path, point):
    """One point is marked: each request to it is refused, and none to another point."""
    answers = {"default": "low 0000", "56": "low 0000", "57": "low 0000", "59": "low 2111", "60": "low 0004000180a1",
               "61": "ack", "62": "ack", point: "RR Busy"}
    rows = HELD + f"busy 5 {point} on => DataExch 1 | done\n"
    rows += "".join(f"ask 1 5 4d {other} {octets} => DataExch 1 | {answers[other]}\n" for other, octets in BUSY.items())
    play(run, tmp_path, LineOfRows(), rows)


POINTS = {
    "marks-outside-the-table": (LineOfRows(), HELD + "".join(
        f"busy 5 {number} on => - | none | refused UnknownPoint\n" for number in (0, 55, 63, 64, 255))),
    "a-mark-stays-until-it-is-taken-away": (LineOfRows(), f"""\
busy 5 default on => WaitPrm none | done
busy 5 60 on => WaitPrm none | done
{HELD}head => slave 5 DataExch 1 3 off x----d--; set 5 11 0 0 ---; prm 5 off -- 11 1 -
busy 5 60 off => DataExch 1 | done
head => slave 5 DataExch 1 3 off x-------; set 5 11 0 0 ---; prm 5 off -- 11 1 -
ask 1 5 4d 60 - => DataExch 1 | low 0004000180a1
ask 1 5 4d default 0000 => DataExch 1 | RR Busy
"""),
    # A Global_Control meets the mark of its point, and an SRD to this point does not: it is no service there.
    "busy-points": (LineOfRows(), HELD + """\
busy 5 61 on => DataExch 1 | done
ask 1 5 7d 61 8802050b80a101 => DataExch 1 | RR Busy
busy 5 58 on => DataExch 1 | done
ask 1 5 5d 58 2000 => DataExch 1 | RS NoService
ask 1 5 46 58 2000 => DataExch 1 | silence Busy
"""),
    "lists-of-a-held-slave": (WITH_LISTS, HELD.replace("ask 1", "ask 3").replace("WaitCfg 1", "WaitCfg 3") + """\
ask 1 5 4d 61 8002050b80a101 => DataExch 3 | RS NotHolder
ask 2 5 4d 61 8002050b80a101 => DataExch 3 | RS NotHolder
ask 3 5 4d 56 - => DataExch 3 | low 0000
ask 3 5 4d 57 - => DataExch 3 | low 0000
ask 1 5 4d 56 - => DataExch 3 | RS NotListed
ask 1 5 4d 57 - => DataExch 3 | RS NotListed
ask 2 5 4d 59 - => DataExch 3 | low 2111
ask 2 5 4d 60 - => DataExch 3 | low 0004000380a1
"""),
    "lists-of-a-free-slave": (WITH_LISTS, """\
ask 2 5 4d 61 8002050b80a101 => WaitPrm none | RS NotListed
ask 2 5 4d 61 - => WaitPrm none | RS NotListed
ask 2 5 4d 56 - => WaitPrm none | RS NotActive
ask 1 5 4d 61 8002050b80a101 => WaitPrm none | ack
ask 1 5 4d 61 40000000000000 => WaitCfg 1 | ack
ask 3 5 4d 61 8002050b80a101 => WaitPrm none | ack
"""),
    "who-is-not-listed": (ONE_LOCKER, HELD + """\
ask 2 5 6d 61 8802050b80a101 => DataExch 1 | RS NotHolder
ask 2 5 6d 56 - => DataExch 1 | RS NotListed
ask 2 5 6d 57 - => DataExch 1 | RS NotListed
ask 2 5 46 57 - => DataExch 1 | silence NotListed
ask 1 5 7d 57 - => DataExch 1 | low 0000
ask 2 5 5d 60 - => DataExch 1 | low 0004000180a1
busy 5 57 on => DataExch 1 | done
ask 2 5 6d 57 - => DataExch 1 | RS NotListed
ask 2 5 46 56 - => DataExch 1 | silence NotListed
"""),
    "without-lists-everybody-reads-and-locks": (LineOfRows(masters=(0, 1, 126)), HELD + """\
ask 0 5 4d 56 - => DataExch 1 | low 0000
ask 126 5 4d 57 - => DataExch 1 | low 0000
ask 1 5 4d 61 40000000000000 => DataExch 1 | ack
ask 126 5 4d 61 8002050b80a101 => WaitPrm none | ack
ask 126 5 4d 61 40000000000000 => WaitCfg 126 | ack
ask 0 5 4d 61 8002050b80a101 => WaitPrm none | ack
"""),
    "refusals": (LineOfRows(), HELD + """\
ask 1 5 7d default 123456 => DataExch 1 | UE Length
ask 1 5 5d 58 2000 => DataExch 1 | RS NoService
ask 1 5 46 58 2000 => DataExch 1 | done
ask 2 5 46 58 2000 => DataExch 1 | silence NotHolder
ask 1 5 46 60 - => DataExch 1 | silence NoService
ask 1 5 6d 55 - => DataExch 1 | RS NotActive
ask 1 5 44 55 - => DataExch 1 | silence NotActive
ask 1 5 46 58 - => DataExch 1 | silence Length
ask 1 5 46 58 200000 => DataExch 1 | silence Length
"""),
    "another-master-is-not-the-holder": (LineOfRows(), HELD + """\
ask 2 5 6d 61 8802050b80a101 => DataExch 1 | RS NotHolder
req 2 680c0c6885827d3d3e8802050b80a101bb16 => DataExch 1 | reply 100205030a16 Repeat
ask 2 5 5d 60 - => DataExch 1 | low 0004000180a1
ask 1 5 7d 61 8802050b80a101 => DataExch 1 | ack
"""),
    "none-is-taken-beside-the-length": (FAIL_SAFE, HELD + """\
ask 1 5 46 58 0200 => DataExch 1 | done
ask 1 5 4d default - => DataExch 1 | low 0000
ask 1 5 4d default 12 => DataExch 1 | UE Length
ask 1 5 4d default 123456 => DataExch 1 | UE Length
ask 1 5 4d 56 00 => DataExch 1 | UE Length
ask 1 5 46 58 - => DataExch 1 | silence Length
ask 1 5 4d 56 - => DataExch 1 | low 0000
ask 1 5 4d default 1234 => DataExch 1 | low 0000
ask 1 5 4d default - => DataExch 1 | UE Length
"""),
}


@pytest.mark.parametrize(("line", "rows"), POINTS.values(), ids=POINTS)
def test_points(run, tmp_path, line, rows):
    play(run, tmp_path, line, rows)
