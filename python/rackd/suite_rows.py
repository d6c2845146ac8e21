"""The requests of masters in the journal of a line, read while a rack writes it."""
from __future__ import annotations

import functools
from dataclasses import dataclass
from pathlib import Path
from typing import Dict, List, Optional

from . import frames
from .frames import Frame
from .rack import Line


@dataclass(frozen=True)
class Request:
    """A request in a journal (docs/reference/audit-texts.md): its place, its master, and how it was answered."""

    place: int
    master: int
    octets: bytes
    outcome: str

    @functools.cached_property
    def frame(self) -> Frame:
        """The frame that the octets are."""
        return frames.decode(self.octets)

    @property
    def slave(self) -> int:
        """The address that it was sent to, 127 for all slaves."""
        return self.frame.destination

    @property
    def point(self) -> Optional[int]:
        """The access point, None for the default one: Data_Exchange."""
        return self.frame.dsap

    @property
    def data(self) -> bytes:
        """The data behind the access points."""
        return self.frame.data

    @property
    def is_answered(self) -> bool:
        """Whether the slave has replied."""
        return self.outcome.startswith("reply ")

    @property
    def reply(self) -> str:
        """The octets of the reply as they stand in the row, nothing if the slave has not replied."""
        return self.outcome.split(" ")[1] if self.is_answered else ""

    @property
    def is_repeat(self) -> bool:
        """Whether it has the FCB of the request before, so that the slave has replied as before."""
        return self.is_answered and self.outcome.endswith(" Repeat")

    @functools.cached_property
    def rules(self) -> Dict[int, str]:
        """The rule of docs/reference/policy.md that decided, by slave: of a Global_Control to all for each slave it reached."""
        kind, *words = self.outcome.split(" ")
        if kind == "spread":
            return {int(address): rule for address, rule in (word.split(":") for word in words)}
        return {self.slave: words[-1] if words else "Done"}


def request_of(row: str) -> Optional[Request]:
    """Returns the request of a row, None for an event of an operator and for the header."""
    parts = row.split(" | ")
    words = parts[0].split(" ")
    if len(parts) != 3 or words[1] != "req":
        return None
    return Request(int(words[0]), int(words[2]), bytes.fromhex(words[3]), parts[2])


class Requests:
    """The requests of the masters of a line so far, as a list: `all`. `read` appends those that came since."""

    def __init__(self, line: Line) -> None:
        self.all: List[Request] = []
        self._line = line
        self._part, self._offset, self._rest = 0, 0, b""

    def read(self) -> List[Request]:
        """Returns all requests of the line until now, in their order."""
        files = self._line.files()
        while self._part < len(files):
            self._take(files[self._part])
            # a part that has a next one is complete
            if self._part + 1 == len(files):
                break
            self._part, self._offset = self._part + 1, 0
        return self.all

    def _take(self, path: Path) -> None:
        with open(path, "rb") as file:
            file.seek(self._offset)
            more = file.read()
        self._offset += len(more)
        *rows, self._rest = (self._rest + more).split(b"\n")
        self.all += filter(None, (request_of(row.decode()) for row in rows))
