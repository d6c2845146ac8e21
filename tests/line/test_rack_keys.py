"""What the keys of a slave in the rack file do, each by what the slave then answers."""
import pytest

from support.command_lines import without_row_of_file
from support.line_rows import LineOfRows, play
from support.racks import line, rack, slave

SYNC, FREEZE, BOTH = "a000000b80a101", "9000000b80a101", "b000000b80a101"
NOT_SUPPORTED = "ask 2 5 4d 60 - => WaitPrm none | low 520500ff80a1\n"
HELD = "ask 2 5 4d 60 - => WaitCfg 1 | low 0204000180a1\n"


def with_keys(cfg, data="-", **keys):
    """Returns a line whose slave has these keys, and no others."""
    return LineOfRows(cfg=cfg, inputs=data, outputs=data, keys=tuple(keys.items()))


FLAGS = {
    "freeze-and-no-sync": (with_keys("aB", sync=None, freeze=True)._replace(outputs="00" * 12), {
        SYNC: NOT_SUPPORTED, FREEZE: HELD, BOTH: NOT_SUPPORTED}),
    "sync-and-no-freeze": (with_keys("", sync=True, freeze=None), {SYNC: HELD, FREEZE: NOT_SUPPORTED, BOTH: NOT_SUPPORTED}),
    "neither": (with_keys("", sync=None, freeze=None), {SYNC: NOT_SUPPORTED, FREEZE: NOT_SUPPORTED}),
    "both-false": (with_keys("", sync=False, freeze=False), {SYNC: NOT_SUPPORTED, FREEZE: NOT_SUPPORTED}),
    "both": (with_keys("", sync=True, freeze=True), {SYNC: HELD, FREEZE: HELD, BOTH: HELD}),
}


@pytest.mark.parametrize(("described", "octets", "row"), [
    pytest.param(described, octets, row, id=f"{name}-{octets[:2]}")
    for name, (described, rows) in FLAGS.items() for octets, row in rows.items()])
def test_sync_and_freeze(run, tmp_path, described, octets, row):
    play(run, tmp_path, described, f"ask 1 5 4d 61 {octets} => WaitPrm none | ack\n{row}")


def test_digits_of_a_configuration_in_either_case(run, tmp_path):
    play(run, tmp_path, with_keys("aB")._replace(outputs="00" * 12), "ask 1 5 4d 59 - => WaitPrm none | low ab\n")


def test_no_user_parameters(run, tmp_path):
    """With `user_max` 0 a Set_Prm of seven octets locks, and one of eight is a fault."""
    play(run, tmp_path, LineOfRows(keys=(("user_max", 0),)), """\
ask 1 5 4d 61 8000000b80a10100 => WaitPrm none | ack
head => diag 5 ----p-- -
ask 1 5 4d 61 8000000b80a101 => WaitPrm none | ack
head => slave 5 WaitCfg 1 2 off --------; prm 5 off -- 11 1 -
""")


def test_most_user_parameters(run, tmp_path):
    """Without `user_max` a slave takes 237 octets of user parameters."""
    user = "00" * 237
    play(run, tmp_path, LineOfRows(), f"""\
ask 1 5 4d 61 8000000b80a101{user} => WaitPrm none | ack
head => slave 5 WaitCfg 1 1 off --------; prm 5 off -- 11 1 {user}
""")


# The answer to a step, and the inputs of a slave in data exchange with outputs 12 34 after it.
DEVICES = {
    None: ("stepped 0", "aa55"),
    "still": ("stepped 0", "aa55"),
    "counter": ("stepped 1", "aa56"),
    "mirror": ("stepped 1", "1234"),
}


@pytest.mark.parametrize("device", DEVICES, ids=str)
def test_device(run, device):
    stepped, inputs = DEVICES[device]
    described = LineOfRows(keys=(("device", device),))
    script = """\
m 1 680c0c6885814d3d3e8002050b80a1018216
m 1 6807076885814d3e3e21110116
in 5 aa55
m 1 6805056805014d12349916
step
show 5
"""
    answers = f"1: reply e5 Done\n1: reply e5 Done\ndone\n1: reply 68050568010508aa550d16 Done\n{stepped}\n"
    shown = f"show 5 DataExch 1 in {inputs} out 1234 wd off\n"
    assert run(input=f"{described.rack}%%\n{script}") == (0, answers + shown, "")


READ = "ask {} 5 4d 56 - => DataExch 1 | {}\n"
LOCK = "ask {} 5 4d 61 8000000b80a101 => WaitPrm none | {}\n"
BROUGHT_UP = LOCK.format(1, "ack") + "ask 1 5 4d 62 2111 => WaitCfg 1 | ack\n"
LISTS = {
    "lockers-and-readers": (
        {"lockers": [2, 1], "readers": [1, 2, 1]},
        LOCK.format(3, "RS NotListed") + BROUGHT_UP + READ.format(2, "low 0000") + READ.format(3, "RS NotListed")),
    "sixteen-readers": (
        {"readers": [1, 2] * 8}, LOCK.format(3, "ack") + "ask 3 5 4d 61 40000000000000 => WaitCfg 3 | ack\n" + BROUGHT_UP
        + READ.format(2, "low 0000") + READ.format(3, "RS NotListed")),
    "no-lockers": ({"lockers": []}, LOCK.format(1, "RS NotListed") + LOCK.format(2, "RS NotListed")),
    "no-readers": ({"readers": []}, BROUGHT_UP + READ.format(1, "low 0000") + READ.format(2, "RS NotListed")),
    "no-lists": ({}, BROUGHT_UP + READ.format(2, "low 0000") + READ.format(3, "low 0000")),
}


@pytest.mark.parametrize(("keys", "rows"), LISTS.values(), ids=LISTS)
def test_lists(run, tmp_path, keys, rows):
    play(run, tmp_path, LineOfRows(masters=(1, 2, 3), keys=tuple(keys.items())), rows)


# The configurations, and which of them a Chk_Cfg with the octets chooses.
CONFIGURATIONS = {
    "two": (["2111", "aB"], "ab", 1),
    "one-in-a-list": (["2111"], "2111", 0),
    "an-empty-one": (["2111", "", "11", "2111"], "-", 1),
    "the-third": (["2111", "", "11", "2111"], "11", 2),
    "the-first-of-equal-ones": (["2111", "", "11", "2111"], "2111", 0),
}
DATA = {"2111": ("0000", "0000"), "ab": ("-", "00" * 12), "-": ("-", "-"), "11": ("0000", "-")}


@pytest.mark.parametrize(("cfgs", "octets", "number"), CONFIGURATIONS.values(), ids=CONFIGURATIONS)
def test_configurations(run, tmp_path, cfgs, octets, number):
    inputs, outputs = DATA[octets]
    play(run, tmp_path, LineOfRows(cfg=cfgs), f"""\
ask 1 5 4d 59 - => WaitPrm none | low {cfgs[0]}
ask 1 5 4d 61 8000000b80a101 => WaitPrm none | ack
ask 1 5 4d 62 {octets} => WaitCfg 1 | ack
head => slave 5 DataExch 1 2 off --------; set 5 11 {number} {number} ---; prm 5 off -- 11 1 -; \
in 5 {inputs} {inputs}; out 5 {outputs} {outputs}
""")


# A Data_Exchange of no octets after Clear_Data.
FAIL_SAFE = {True: "low 0000", False: "UE Length", None: "UE Length"}


@pytest.mark.parametrize("failsafe", FAIL_SAFE, ids=str)
def test_fail_safe(run, tmp_path, failsafe):
    play(run, tmp_path, LineOfRows(keys=(("failsafe", failsafe),)), BROUGHT_UP + f"""\
ask 1 5 46 58 0200 => DataExch 1 | done
ask 1 5 4d default - => DataExch 1 | {FAIL_SAFE[failsafe]}
""")


# The keys of a line, the addresses of its slaves and their configuration; and what is reported.
REFUSED = {
    "a-slave-with-the-address-of-a-master": ({}, (1,), "", "TwiceAddress\n  line 1, slave 1: address 1 is that of a master, too"),
    "two-slaves-with-one-address": ({}, (5, 7, 5), "", "TwiceAddress\n  line 1, slave 3: address 5 is used twice"),
    "one-place": ({"capacity": 1}, (5,), "", "Limit\n  line 1: capacity 1, expected 2 to 65536"),
    "a-place-too-many": ({"capacity": 65537}, (5,), "", "Limit\n  line 1: capacity 65537, expected 2 to 65536"),
    # A limit comes before an address that is there twice.
    "an-address-above-126-twice": ({}, (127, 127), "", "Limit\n  line 1, slave 1: address 127, expected 0 to 126"),
    "a-configuration-that-is-cut": (
        {}, (5, 6), "c101", "BadCfg\n  line 1, slave 1: configuration 1 ends within its identifier at octet 1"),
    "an-address-twice-and-a-configuration-that-is-cut": (
        {}, (5, 5), "c101", "TwiceAddress\n  line 1, slave 2: address 5 is used twice"),
}


@pytest.mark.parametrize(("keys", "addresses", "cfg", "fault"), REFUSED.values(), ids=REFUSED)
def test_line_that_is_refused(run, keys, addresses, cfg, fault):
    ended = without_row_of_file(run(input=LineOfRows(slaves=addresses, cfg=cfg, **keys).rack))
    assert ended == (2, "", f"rackd: rack line 1 {fault}\n")


# A line with one fault, whose other numbers are right but at their limits; and what is reported.
AT_LIMITS = {
    "places-masters-slaves": (
        line(1, *range(1, 64), slave(64, user_max=238), masters=[0, 126], capacity=2),
        "Limit\n  line 1, slave 64: user_max 238, expected at most 237"),
    "places-and-an-address": (
        line(1, 126, slave(5, user_max=238), capacity=65536), "Limit\n  line 1, slave 2: user_max 238, expected at most 237"),
    "an-address-of-a-master": (line(1, 4, 3), "TwiceAddress\n  line 1, slave 2: address 3 is that of a master, too"),
}


@pytest.mark.parametrize(("text", "fault"), AT_LIMITS.values(), ids=AT_LIMITS)
def test_numbers_at_their_limits_are_no_faults(run, text, fault):
    assert without_row_of_file(run(input=rack(text))) == (2, "", f"rackd: rack line 1 {fault}\n")


# A line with several faults; and which of them is reported.
SEVERAL_FAULTS = {
    "places": (line(1, masters=[], slave=[], capacity=65537), "Limit\n  line 1: capacity 65537, expected 2 to 65536"),
    "no-master": (line(1, masters=[], slave=[]), "Limit\n  line 1: no master, expected at least one"),
    "no-slave": (line(1, masters=[127], slave=[]), "Limit\n  line 1: no slave, expected at least one"),
    "masters": (line(1, 127, masters=[1, 128, 127]), "Limit\n  line 1: master 128, expected 0 to 126"),
    "slaves": (line(1, slave(5, user_max=238), 127), "Limit\n  line 1, slave 1: user_max 238, expected at most 237"),
    "readers": (
        line(1, slave(5, lockers=[1], readers=[2, 9, 8]), slave(6, lockers=[7])),
        "UnknownListed\n  line 1, slave 1: readers has 9, which is no master of the line"),
    "lockers": (
        line(1, 5, slave(6, lockers=[3, 8, 9], readers=[7])),
        "UnknownListed\n  line 1, slave 2: lockers has 8, which is no master of the line"),
}


@pytest.mark.parametrize(("text", "fault"), SEVERAL_FAULTS.values(), ids=SEVERAL_FAULTS)
def test_first_of_several_faults(run, text, fault):
    assert without_row_of_file(run(input=rack(text))) == (2, "", f"rackd: rack line 1 {fault}\n")
