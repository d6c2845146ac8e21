"""Reads captures in the format pcapng. It is written from the format's text ("PCAP Next Generation Capture File Format",
IETF draft), and from what docs/reference/captures.md says of the captures of `rackd capture`: any other block or option is refused.
"""
import re
import struct
from dataclasses import dataclass
from typing import Iterator, List, Tuple

SECTION, INTERFACE, PACKET = 0x0A0D0D0A, 1, 6
BYTE_ORDER = 0x1A2B3C4D
UNKNOWN_LENGTH = -1
EXPORTED_PDU = 252
END, COMMENT, NAME, FLAGS, RESOLUTION = 0, 1, 2, 2, 9
INBOUND, OUTBOUND, UNKNOWN = 1, 2, 0
DISSECTOR = 12
TEXT = re.compile(rb'[ -~]+')


class WrongCapture(Exception):
    """The octets are no capture, or none of this form."""


@dataclass
class Packet:
    """A packet, with the name of its interface and its time in microseconds."""

    interface: str
    time: int
    direction: int
    octets: bytes
    comment: str


@dataclass
class Capture:
    comment: str
    interfaces: List[str]
    packets: List[Packet]


def require(holds: bool, what: str) -> None:
    if not holds:
        raise WrongCapture(what)


def padded(size: int) -> int:
    """Returns the size with what fills up to a multiple of 4."""
    return size + -size % 4


def blocks_of(octets: bytes) -> Iterator[Tuple[int, bytes]]:
    """Yields the type and the body of each block."""
    at = 0
    while at < len(octets):
        require(len(octets) - at >= 12, f'octet {at}: the block is cut')
        kind, size = struct.unpack_from('<II', octets, at)
        require(size >= 12 and size % 4 == 0, f'octet {at}: the length of the block is {size}')
        require(at + size <= len(octets), f'octet {at}: the block is cut')
        again = struct.unpack_from('<I', octets, at + size - 4)[0]
        require(again == size, f'octet {at}: the length of the block is {size}, and at its end {again}')
        yield kind, octets[at + 8:at + size - 4]
        at += size


def options_of(octets: bytes) -> List[Tuple[int, bytes]]:
    """Returns the code and the value of each option; the last one ends the options."""
    options, at = [], 0
    while True:
        require(at + 4 <= len(octets), 'the options have no end')
        code, size = struct.unpack_from('<HH', octets, at)
        value = octets[at + 4:at + 4 + size]
        require(len(value) == size, 'an option is cut')
        fill = octets[at + 4 + size:at + 4 + padded(size)]
        require(fill == bytes(-size % 4), 'an option is not padded with zeros')
        at += 4 + padded(size)
        if code == END:
            require(size == 0 and at == len(octets), 'octets follow the end of the options')
            return options
        options.append((code, value))


def text_of(value: bytes) -> str:
    require(TEXT.fullmatch(value) is not None, f'a text has other octets than printable ASCII: {value!r}')
    return value.decode('ascii')


def read_section(body: bytes) -> str:
    """Returns the comment of a section."""
    order, major, minor, length = struct.unpack_from('<IHHq', body)
    require(order == BYTE_ORDER, 'the octets are not in little-endian order')
    require((major, minor, length) == (1, 0, UNKNOWN_LENGTH), f'version {major}.{minor}, section length {length}')
    options = options_of(body[16:])
    require([code for code, _ in options] == [COMMENT], f'options of the section: {options}')
    return text_of(options[0][1])


def read_interface(body: bytes) -> str:
    """Returns the name of an interface."""
    link, reserved, most = struct.unpack_from('<HHI', body)
    require((link, reserved, most) == (EXPORTED_PDU, 0, 0), f'link type {link}, reserved {reserved}, limit {most}')
    options = options_of(body[8:])
    require([code for code, _ in options] == [NAME, RESOLUTION], f'options of an interface: {options}')
    require(options[1][1] == b'\x06', f'resolution {options[1][1]!r}')
    return text_of(options[0][1])


def read_data(octets: bytes) -> bytes:
    """Returns the octets behind the tags of an exported PDU, which name the dissector `fdl`."""
    tag, size = struct.unpack_from('>HH', octets)
    require(tag == DISSECTOR and size % 4 == 0, f'tag {tag} with {size} octets')
    require(octets[4:4 + size].rstrip(b'\0') == b'fdl', f'dissector {octets[4:4 + size]!r}')
    require(octets[4 + size:8 + size] == bytes(4), 'the tags have no end')
    return octets[8 + size:]


def read_packet(body: bytes, interfaces: List[str]) -> Packet:
    interface, high, low, captured, size = struct.unpack_from('<IIIII', body)
    require(interface < len(interfaces), f'there is no interface {interface}')
    require(captured == size and 20 + padded(captured) <= len(body), f'{captured} octets captured of {size}')
    require(body[20 + captured:20 + padded(captured)] == bytes(-captured % 4), 'data are not padded with zeros')
    options = options_of(body[20 + padded(captured):])
    require([code for code, _ in options] == [COMMENT, FLAGS], f'options of a packet: {options}')
    flags = struct.unpack('<I', options[1][1])[0]
    return Packet(interfaces[interface], high << 32 | low, flags, read_data(body[20:20 + captured]), text_of(options[0][1]))


def read_capture(octets: bytes) -> Capture:
    """Returns what a capture has. Raises WrongCapture if it is none of the form that this chapter describes."""
    blocks = list(blocks_of(octets))
    require(bool(blocks) and blocks[0][0] == SECTION, 'the first block is no section header')
    capture = Capture(read_section(blocks[0][1]), [], [])
    for kind, body in blocks[1:]:
        if kind == INTERFACE:
            require(not capture.packets, 'an interface follows a packet')
            capture.interfaces.append(read_interface(body))
        else:
            require(kind == PACKET, f'a block of type {kind}')
            capture.packets.append(read_packet(body, capture.interfaces))
    return capture
