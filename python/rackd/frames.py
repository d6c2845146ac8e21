"""Coding of FDL frames (IEC 61158-4-3, frame formats): SD1, SD2, SD3, token and short acknowledgement."""
from __future__ import annotations

from dataclasses import dataclass
from typing import Optional

from .faults import BadEnd, BadHead, Long, NoStart, Short

SD1, SD2, SD3, SD4, SC, ED = 0x10, 0x68, 0xA2, 0xDC, 0xE5, 0x16
# the number of octets of a whole frame, by its first octet
SIZES = {SD1: 6, SD3: 14, SD4: 3, SC: 1}
# bit 7 of an address: an access point follows at the front of the data
EXTENSION = 0x80


@dataclass(frozen=True)
class Frame:
    """A frame. `start` is its first octet; `du` are its data with the access points. A token has addresses only."""

    start: int
    da: int = 0
    sa: int = 0
    fc: int = 0
    du: bytes = b""

    @property
    def destination(self) -> int:
        """The address in DA, 0 to 127."""
        return self.da & 0x7F

    @property
    def source(self) -> int:
        """The address in SA, 0 to 127."""
        return self.sa & 0x7F

    @property
    def dsap(self) -> Optional[int]:
        """The destination access point, if DA announces one."""
        return self.du[0] if self.da & EXTENSION and self.du else None

    @property
    def ssap(self) -> Optional[int]:
        """The source access point, if SA announces one."""
        place = 1 if self.da & EXTENSION else 0
        return self.du[place] if self.sa & EXTENSION and len(self.du) > place else None

    @property
    def data(self) -> bytes:
        """The data behind the access points."""
        return self.du[sum(1 for address in (self.da, self.sa) if address & EXTENSION):]


def fcs(octets: bytes) -> int:
    """Returns the check sequence of DA, SA, FC and the data: their sum modulo 256."""
    return sum(octets) % 256


def sd1(da: int, sa: int, fc: int) -> bytes:
    """Returns a frame without data."""
    body = bytes([da, sa, fc])
    return bytes([SD1]) + body + bytes([fcs(body), ED])


def sd2(da: int, sa: int, fc: int, du: bytes) -> bytes:
    """Returns a frame of variable length, with 1 to 246 octets of data. Raises ValueError for another number."""
    if not 1 <= len(du) <= 246:
        raise ValueError(f"an SD2 has 1 to 246 octets of data, not {len(du)}")
    body = bytes([da, sa, fc]) + du
    return bytes([SD2, len(body), len(body), SD2]) + body + bytes([fcs(body), ED])


def sd3(da: int, sa: int, fc: int, du: bytes) -> bytes:
    """Returns a frame with eight octets of data. Raises ValueError for another number."""
    if len(du) != 8:
        raise ValueError(f"an SD3 has 8 octets of data, not {len(du)}")
    body = bytes([da, sa, fc]) + du
    return bytes([SD3]) + body + bytes([fcs(body), ED])


def token(da: int, sa: int) -> bytes:
    """Returns a token."""
    return bytes([SD4, da, sa])


def request(destination: int, source: int, fc: int, data: bytes = b"",
            dsap: Optional[int] = None, ssap: Optional[int] = None) -> bytes:
    """Returns a request: SD2, or SD1 if it has neither data nor access points. An access point of None is left out."""
    da = destination if dsap is None else destination | EXTENSION
    sa = source if ssap is None else source | EXTENSION
    du = bytes(point for point in (dsap, ssap) if point is not None) + data
    return sd2(da, sa, fc, du) if du else sd1(da, sa, fc)


def size_of(octets: bytes) -> Optional[int]:
    """Returns how many octets the frame has that these octets begin, or None if too few are there to know.

    Raises NoStart if the first octet begins no frame, BadHead if the head of an SD2 is wrong.
    """
    if not octets:
        return None
    if octets[0] in SIZES:
        return SIZES[octets[0]]
    if octets[0] != SD2:
        raise NoStart(f"{octets[0]:02x} begins no frame")
    if len(octets) < 4:
        return None
    if not 4 <= octets[1] <= 249 or octets[2] != octets[1] or octets[3] != SD2:
        raise BadHead(f"{octets[:4].hex(' ')} is no head of an SD2")
    return octets[1] + 6


def decode(octets: bytes) -> Frame:
    """Returns the frame that these octets are. Raises a BadFrame: NoStart, BadHead, Short, Long or BadEnd."""
    size = size_of(octets)
    if size is None or len(octets) < size:
        raise Short(f"{octets.hex(' ')} is not whole")
    if octets[0] == SC:
        frame = Frame(SC)
    elif octets[0] == SD4:
        frame = Frame(SD4, octets[1], octets[2])
    else:
        body = octets[4 if octets[0] == SD2 else 1:size - 2]
        if octets[size - 2] != fcs(body) or octets[size - 1] != ED:
            raise BadEnd(f"{octets[:size].hex(' ')} has a wrong end")
        frame = Frame(octets[0], body[0], body[1], body[2], bytes(body[3:]))
    if len(octets) > size:
        raise Long(f"{len(octets) - size} octets follow the frame")
    return frame
