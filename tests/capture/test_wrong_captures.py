"""The reader of the captures finds each wrong capture: a right one is changed in one way, and read again."""
import struct

import pytest

from oracle.captures import faults_of
from support.captured_texts import TESTS

pytest.importorskip("tomllib", reason="tomllib of Python 3.11 is not installed")

# The text has two interfaces, and its first two packets are a request and its reply.
RACK = str(TESTS / "explain" / "two-lines" / "rack.toml")
AUDIT = str(TESTS / "explain" / "two-lines" / "second_line.audit")
# The number of a block in the capture.
SECTION, FIRST_INTERFACE, SECOND_INTERFACE, REQUEST, REPLY = range(5)
# Where the body of a block begins, the data of a packet, and the telegram in these.
BODY, DATA, TELEGRAM = 8, 28, 40


def blocks_of(octets):
    """Returns the blocks of a right capture."""
    blocks, at = [], 0
    while at < len(octets):
        size = struct.unpack_from("<I", octets, at + 4)[0]
        blocks.append(bytearray(octets[at:at + size]))
        at += size
    return blocks


def added(block, at, number):
    """Returns a change that adds a number to one octet of a block."""
    def change(blocks):
        blocks[block][at] = (blocks[block][at] + number) % 256
    return change


def letter_of(block, word):
    """Returns a change of the first letter of a word in a block."""
    def change(blocks):
        blocks[block][blocks[block].index(word)] += 1
    return change


def exchanged(first, second):
    """Returns a change that exchanges two blocks."""
    def change(blocks):
        blocks[first], blocks[second] = blocks[second], blocks[first]
    return change


def without(block):
    """Returns a change that leaves a block out."""
    return lambda blocks: blocks.pop(block)


def twice(blocks):
    blocks.append(blocks[-1])


def cut(blocks):
    del blocks[-1][-4:]


# What is wrong, the change, and what the first row has that the reader has to give.
CHANGES = [
    ("first packet is missing", without(REQUEST), "9 packets, wanted 10"),
    ("last packet is missing", without(-1), "9 packets, wanted 10"),
    ("last packet is there twice", twice, "11 packets, wanted 10"),
    ("reply stands before its request", exchanged(REQUEST, REPLY), "packet 1: direction 2, wanted 1"),
    ("interfaces are exchanged", exchanged(FIRST_INTERFACE, SECOND_INTERFACE),
     "interfaces: ['line 2', 'line 7'], wanted ['line 7', 'line 2']"),
    ("interface is missing", without(SECOND_INTERFACE), "no capture: there is no interface 1"),
    ("interface has another name", letter_of(FIRST_INTERFACE, b"line"),
     "interfaces: ['mine 7', 'line 2'], wanted ['line 7', 'line 2']"),
    ("interface has another link type", added(FIRST_INTERFACE, BODY, 1), "no capture: link type 253, "),
    ("times are in nanoseconds", added(FIRST_INTERFACE, BODY + 8 + 12 + 4, 3), "no capture: resolution b'\\t'"),
    ("section does not say how times are made", letter_of(SECTION, b"10 ms"),
     "the comment of the section does not say how times are made"),
    ("section has another version", added(SECTION, BODY + 4, 1), "no capture: version 2.0, "),
    ("packet has another interface", added(REQUEST, BODY, 1), "no capture: there is no interface 2"),
    ("packet is a microsecond late", added(REQUEST, BODY + 8, 1), "packet 1: time 2, wanted 1"),
    ("upper half of the time is wrong", added(REQUEST, BODY + 4, 1), "packet 1: time 4294967297, wanted 1"),
    ("packet has more octets than were captured", added(REQUEST, BODY + 16, 1), "no capture: 30 octets captured of 31"),
    ("dissector has another name", added(REQUEST, DATA + 4, 1), "no capture: dissector b'gdl"),
    ("tag is that of a heuristic dissector", added(REQUEST, DATA + 1, 1), "no capture: tag 13 with 4 octets"),
    ("octet of a request is wrong", added(REQUEST, TELEGRAM + 6, 1), "packet 1: octets "),
    ("last octet of a reply is wrong", added(REPLY, TELEGRAM, 1), "packet 2: octets b'\\xe6', wanted b'\\xe5'"),
    ("comment of a request is wrong", letter_of(REQUEST, b"place"), "packet 1: comment 'qlace 1 "),
    ("comment of a reply is wrong", letter_of(REPLY, b"place"), "packet 2: comment 'qlace 1 "),
    ("request goes out", added(REQUEST, -12, 1), "packet 1: direction 2, wanted 1"),
    ("options have no end", added(REQUEST, -8, 1), "no capture: the options have no end"),
    ("padding is not zero", added(REPLY, TELEGRAM + 3, 1), "no capture: data are not padded with zeros"),
    ("lengths of a block differ", added(REQUEST, -4, 4), ", and at its end "),
    ("block is of another type", added(REPLY, 0, 1), "no capture: a block of type 7"),
    ("last block is cut", cut, ": the block is cut"),
]


def right_capture(capture):
    """Returns the octets of the right capture."""
    captured = capture(RACK, AUDIT)
    assert faults_of(captured.octets, captured.status, RACK, [AUDIT]) == []
    return captured.octets


@pytest.mark.parametrize("change, fault", [row[1:] for row in CHANGES], ids=[row[0].replace(" ", "-") for row in CHANGES])
def test_change_is_found(capture, change, fault):
    right = right_capture(capture)
    blocks = blocks_of(right)
    change(blocks)
    wrong = b"".join(blocks)
    assert wrong != right
    assert fault in faults_of(wrong, 0, RACK, [AUDIT])[0]


def test_another_status_is_found(capture):
    assert faults_of(right_capture(capture), 1, RACK, [AUDIT]) == ["status 1, wanted 0"]
