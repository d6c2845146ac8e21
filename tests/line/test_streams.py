"""The frames in the octets of a master, in whatever pieces they come, and what is dropped of them."""
import re

import pytest

from support.line_rows import text_of
from support.racks import line, rack, slave

RACK = rack(line(1, slave(5), masters=[1, 2], capacity=1000))
DIAGNOSIS = "6805056885816d3c3eed16"
ANSWER = "1: reply 680b0b688185083e3c020500ff80a1af16 Done"
STATUS, STATUS_ANSWER = "100501494f16", "1: reply 100105000616 Status"
ACKNOWLEDGED = "1: silence NotRequest"


def answers(run, *pieces):
    """Returns the answers to these octets, each piece a row of a script."""
    done = run(input=text_of([RACK + "%%", *(f"m 1 {piece}" for piece in pieces)]))
    assert (done.status, done.errors) == (0, "")
    return done.output.splitlines()


def octets_of(text):
    """Returns the octets of a hex text, each alone."""
    return re.findall("..", text)


# The octets, and the answers; what is left at the end has none.
STREAMS = {
    "no-start": ("33", ["1: dropped NoStart 1"]),
    "half-a-head": ("680505", []),
    "lengths-that-differ": ("68050468", ["1: dropped BadHead 1", "1: dropped NoStart 1", "1: dropped NoStart 1"]),
    "a-length-of-three": ("680303680501494f16", [
        "1: dropped BadHead 1", "1: dropped NoStart 1", "1: dropped NoStart 1",
        # 68 05 01 49 begins no SD2; then 05 and 01 begin no frame, nor do 49, 4F and 16.
        "1: dropped BadHead 1", *["1: dropped NoStart 1"] * 5]),
    "a-length-of-250": ("68fafa68", ["1: dropped BadHead 1", "1: dropped NoStart 1", "1: dropped NoStart 1"]),
    "another-fourth-octet": ("68050500", ["1: dropped BadHead 1", *["1: dropped NoStart 1"] * 3]),
    "a-wrong-check-sequence": ("100501494e16", ["1: dropped BadEnd 6"]),
    "a-wrong-end-delimiter": ("6805056885816d3c3eed17e5", ["1: dropped BadEnd 11", ACKNOWLEDGED]),
    "a-wrong-end-of-SD3": ("a20501490102030405060708ff00", ["1: dropped BadEnd 14"]),
    "a-frame-and-an-octet": (STATUS + "00", [STATUS_ANSWER, "1: dropped NoStart 1"]),
    "an-acknowledgement-and-an-octet": ("e500", [ACKNOWLEDGED, "1: dropped NoStart 1"]),
    "two-acknowledgements": ("e5e5", [ACKNOWLEDGED, ACKNOWLEDGED]),
    "a-token": ("dc0201", ["1: silence Token"]),
    "a-frame-without-data": (STATUS, [STATUS_ANSWER]),
    "a-frame-with-access-points": (DIAGNOSIS, [ANSWER]),
    "a-frame-and-the-head-of-another": (DIAGNOSIS + "e510", [ANSWER, ACKNOWLEDGED]),
    "a-frame-behind-a-wrong-end": ("6805056805015d1234a816" + STATUS, ["1: dropped BadEnd 11", STATUS_ANSWER]),
    "a-frame-behind-a-wrong-head": ("68050468" + DIAGNOSIS[2:], [
        "1: dropped BadHead 1", "1: dropped NoStart 1", "1: dropped NoStart 1", ANSWER]),
    # The last octet of the wrong head may begin a frame: with what follows, it does not.
    "a-wrong-head-and-a-frame-of-its-own": ("68050468" + DIAGNOSIS, [
        "1: dropped BadHead 1", "1: dropped NoStart 1", "1: dropped NoStart 1", "1: dropped BadHead 1",
        ANSWER]),
    "an-acknowledgement-behind-a-wrong-head": ("68050468e5", [
        "1: dropped BadHead 1", "1: dropped NoStart 1", "1: dropped NoStart 1"]),
}


@pytest.mark.parametrize(("octets", "expected"), STREAMS.values(), ids=STREAMS)
def test_stream(run, octets, expected):
    """The answers are the same if the octets come in one piece, and one by one."""
    assert answers(run, octets) == expected
    assert answers(run, *octets_of(octets)) == expected


def test_wrong_head_and_255_octets(run):
    """After a wrong head its last octet is left, and may begin a frame: with 255 octets of zero behind it, it does not."""
    head = ["1: dropped BadHead 1", "1: dropped NoStart 1", "1: dropped NoStart 1"]
    assert answers(run, "68050468", "00" * 255) == [*head, "1: dropped BadHead 1", *["1: dropped NoStart 1"] * 255]


def test_frames_of_a_stream_in_the_journal(run):
    """An entry has the octets of its frame, and none of those behind it."""
    rows = ["1: dropped NoStart 1", ANSWER, ACKNOWLEDGED, "1: dropped BadEnd 6", STATUS_ANSWER]
    entries = [
        "rack-audit 2 line 1",
        f"1 req 1 {DIAGNOSIS} | WaitPrm none | reply 680b0b688185083e3c020500ff80a1af16 Done",
        "2 req 1 e5 | none | silence NotRequest",
        f"3 req 1 {STATUS} | WaitPrm none | reply 100105000616 Status",
    ]
    text = text_of([RACK + "%%", f"m 1 33{DIAGNOSIS}e5100501494e16{STATUS}10", "journal"])
    assert run(input=text) == (0, text_of(rows + entries), "")


# The number of frames and of dropped pieces in 100,000 pseudo-random octets, and the number of frames that are short
# acknowledgements, tokens of other stations and tokens of station 1. They were counted by a program that was written from the
# printed rules and shares nothing with the product.
PIECES = {"dropped": 92_005, "NotRequest": 336, "ForeignSender": 347, "Token": 3}
# The octets of the stream, of these frames, and the most that are left of it at its end.
OCTETS, OF_FRAMES, MOST_LEFT = 100_000, 336 + 3 * (347 + 3), 254


def pseudo_random(count):
    """Returns bits 16 to 23 of each state of a linear congruential generator, as hex."""
    octets, state = bytearray(), 1
    for _ in range(count):
        octets.append(state >> 16 & 0xFF)
        state = (state * 1_103_515_245 + 12345) % 0x8000_0000
    return octets.hex()


def counted(rows):
    """Returns how many answers are of each kind."""
    kinds = [row.split(" ")[1] if row.startswith("1: dropped ") else row.removeprefix("1: silence ") for row in rows]
    return {kind: kinds.count(kind) for kind in set(kinds)}


def test_pseudo_random_octets(run):
    """The answers are the same by pieces of 1, 7 and 255 octets; each frame is answered, by silence."""
    stream = pseudo_random(OCTETS)
    by_octet = answers(run, *octets_of(stream))
    assert counted(by_octet) == PIECES
    dropped = sum(int(row.split(" ")[3]) for row in by_octet if row.startswith("1: dropped "))
    assert OCTETS - MOST_LEFT <= dropped + OF_FRAMES <= OCTETS
    for size in (7, 255):
        assert answers(run, *(stream[at:at + 2 * size] for at in range(0, len(stream), 2 * size))) == by_octet
