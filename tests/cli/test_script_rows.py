"""The rows of a script: the words, numbers and octets that are read, and the longest answers that are written."""
import pytest

from rackd import frames
from support.line_rows import text_of
from support.racks import line, rack, slave

RACK = rack(line(1, slave(5), slave(0, cfg=""), masters=[1, 126], capacity=1000))
SHOWN = "show 5 WaitPrm none in {} out 0000 wd off"
# Rows, and the answers.
ANSWERED = {
    "inputs-in-either-case": (["in 5 Aa55", "show 5"], ["done", SHOWN.format("aa55")]),
    "no-inputs": (["in 0 -"], ["done"]),
    "the-longest-tick": (["tick 4294967295"], ["released"]),
    "the-greatest-address": (["owned 255", "show 255"], ["owned", "refused NoStation"]),
    "the-least-address": (["show 0"], ["show 0 WaitPrm none in - out - wd off"]),
    "a-step": (["step"], ["stepped 0"]),
    "nothing": ([""], []),
    "a-comment": (["# step"], []),
    "octets-in-one-word": (["m 1 100501494F16"], ["1: reply 100105000616 Status"]),
    "octets-in-words": (["m 1 10 0501 494f 16"], ["1: reply 100105000616 Status"]),
    "octets-in-either-case": (["m 1 10 05 01 49 4F 16", "m 1 10 05 01 49 4f 16"], ["1: reply 100105000616 Status"] * 2),
    "the-greatest-master": (["m 126 10057e49cc16"], ["126: reply 107e05008316 Status"]),
}


@pytest.mark.parametrize(("rows", "answers"), ANSWERED.values(), ids=ANSWERED)
def test_row(run, rows, answers):
    assert run(input=text_of([RACK + "%%", *rows])) == (0, text_of(answers), "")


REFUSED = {
    "a-space": " ",
    "a-space-behind-a-word": "step ",
    "no-command": "nonsense",
    "an-address-of-256": "owned 256",
    "an-address-that-is-far-too-large": "owned 4294967301",
    "a-leading-zero": "show 05",
    "two-zeros": "show 00",
    "a-plus": "show +5",
    "a-minus": "show -5",
    "a-space-behind-a-number": "show 5 ",
    "a-digit-of-hex": "show 5a",
    "no-number": "show ",
    "half-a-pair": "in 5 aa5",
    "a-tick-that-is-too-long": "tick 4294967296",
    "a-carriage-return": "halt\r",
    "an-event-of-an-audit-text": "req 1 e5",
    "two-spaces": "m  1 E5",
    "no-octets": "m 1 ",
    "one-digit": "m 1 E",
    "three-digits": "m 1 E5E",
    "a-space-behind-octets": "m 1 E5 ",
    "two-spaces-before-octets": "m 1  E5",
    "two-spaces-between-octets": "m 1 E5  E5",
    "a-hyphen": "m 1 E5 -",
    "a-tab": "m 1 E5\tE5",
    "no-digit-first": "m 1 G5",
    "no-digit-last": "m 1 0fF0aB3G",
    "no-digit-in-a-later-word": "m 1 0f F0aB G3",
    "a-digit-in-a-later-word": "m 1 0f F0aB 3",
    "a-space-behind-three-octets": "m 1 0f F0aB ",
    "two-spaces-behind-three-octets": "m 1 0f F0aB  33",
}


@pytest.mark.parametrize("row", REFUSED.values(), ids=REFUSED)
def test_row_that_is_no_command(run, row):
    done = run(input=text_of([RACK + "%%", row]))
    assert (done.status, done.output) == (2, "")
    assert done.errors.startswith("rackd: script line 1\n")


def test_answers_by_masters(run):
    """Each answer begins with its master: a reply, a silence, a Global_Control that is done, and octets that are dropped."""
    masters, longest = [0, 3, 10, 126], "68f9f968" + "00" * 249 + "0017"
    lock = frames.request(5, 3, 0x4D, bytes.fromhex("8002050b80a101"), 61, 62)
    configure = frames.request(5, 3, 0x4D, bytes.fromhex("2111"), 62, 62)
    rows = [
        f"m 3 {lock.hex()}",
        f"m 3 {configure.hex()}",
        f"m 3 {frames.request(5, 3, 0x46, bytes(2), 58, 62).hex()}",
        f"m 0 {frames.sd1(5, 0, 0x42).hex()}",
        f"m 10 {longest}",
        f"m 126 {frames.request(5, 126, 0x4D, bytes.fromhex('0000000b000000'), 61, 62).hex()}",
    ]
    answers = ["3: reply e5 Done", "3: reply e5 Done", "3: done", "0: silence BadFunction", "10: dropped BadEnd 255",
               "126: reply 107e05038616 NotHolder"]
    text = rack(line(1, slave(5), masters=masters))
    assert run(input=text_of([text + "%%", *rows])) == (0, text_of(answers), "")


def test_longest_answers(run):
    """A master holds 64 slaves at the greatest addresses: its list, a Global_Control that selects none, and a step of all."""
    addresses = range(63, 127)
    slaves = [slave(address, cfg="20", device="mirror") for address in addresses]
    rows = []
    for address in addresses:
        rows.append(f"m 1 {frames.request(address, 1, 0x4D, bytes.fromhex('8000000b80a101'), 61, 62).hex()}")
        rows.append(f"m 1 {frames.request(address, 1, 0x4D, bytes.fromhex('20'), 62, 62).hex()}")
    rows += ["owned 1", f"m 1 {frames.request(127, 1, 0x46, bytes([0, 2]), 58, 62).hex()}", "step"]
    answers = ["1: reply e5 Done"] * 128 + [
        "owned" + "".join(f" {address}" for address in addresses),
        "1: spread" + "".join(f" {address}:NotSelected" for address in addresses),
        "stepped 64"]
    text = rack(line(1, *slaves, masters=[1]))
    assert run(input=text_of([text + "%%", *rows])) == (0, text_of(answers), "")
