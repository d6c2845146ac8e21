"""A rack in this process, by the shared library librackd.so: no program, socket or clock, and no time but that of `tick`."""
from __future__ import annotations

import ctypes
import os
import threading
from dataclasses import dataclass
from pathlib import Path
from types import TracebackType
from typing import Dict, List, Optional, Type, Union

from .faults import NoProgram, NotAccepted, RackError, RackFault, SessionEnded
from .journal import Journal
from .master import Master
from .operator import Operator
from .program import find_program
from .reasons import FactsInC, Reason

# The library that the repository carries, if this package lies in a checkout, and the one of an installed package.
CARRIED = Path(__file__).resolve().parents[2] / "dist" / "x86_64-linux" / "librackd.so"
INSTALLED = Path(__file__).resolve().parent / "program" / "librackd.so"
# room for each reply, and for each answer or row
MOST_REPLY, MOST_TEXT = 255, 1800
# what a call returns, and the piece that is a frame (include/rackd.h)
OK, NO_COMMAND, SHORT_ROOM, FRAME = 0, 9, 11, 255
FAULTS = {1: "OutOfMemory", 2: "NotToml", 3: "BadKey", 4: "TwiceLine", 5: "Open"}
# the reasons why octets of a stream are dropped
DROPPED = {1: "NoStart", 2: "BadHead", 3: "BadEnd"}


@dataclass(frozen=True)
class Piece:
    """A piece of a master's stream: a frame with its reply, rule and place, or dropped octets with their number and fault."""

    reply: bytes = b""
    rule: str = ""
    place: Optional[int] = None
    dropped: int = 0
    fault: str = ""


def find_library(library: Optional[str] = None) -> str:
    """Returns the path of librackd.so: the one named, or that of the variable RACKD_LIBRARY, of the installed package, of the
    checkout. Raises NoProgram if there is none."""
    named = library or os.environ.get("RACKD_LIBRARY")
    for path in (named,) if named else (INSTALLED, CARRIED):
        if os.path.isfile(path):
            return os.path.abspath(path)
    raise NoProgram(f"there is no library {named or INSTALLED}" + ("" if named else f" or {CARRIED}"))


class EmbeddedSession:
    """What a master or an operator is connected to in process: it answers at once, or not at all."""

    def __init__(self, line: EmbeddedLine, name: str) -> None:
        self._line, self._name, self._closed = line, name, False
        self._received = b""

    def receive(self, timeout: Optional[float]) -> bytes:
        """Returns the octets that have come, or none."""
        self._check()
        received, self._received = self._received, b""
        return received

    def close(self) -> None:
        """Ends the connection."""
        self._closed = True

    def _check(self) -> None:
        if self._closed or not self._line.rack.is_open:
            raise SessionEnded(f"{self._name} was closed")


class MasterSession(EmbeddedSession):
    """The stream of a master. Octets that are no whole telegram yet wait for the next ones, also of a later session."""

    def __init__(self, line: EmbeddedLine, address: int, name: str) -> None:
        super().__init__(line, name)
        self._address = address

    def send(self, octets: bytes) -> None:
        """Sends all octets."""
        self._check()
        self._received += self._line.stream(self._address, octets)


class OperatorSession(EmbeddedSession):
    """The connection of an operator."""

    def send(self, octets: bytes) -> None:
        """Sends one line with its LF."""
        self._check()
        self._received += self._line.operate(octets[:-1])


class EmbeddedLine:
    """A line of a rack in process, with the methods of `rackd.Line` that need no port."""

    def __init__(self, rack: EmbeddedRack, number: int) -> None:
        self.rack, self.number = rack, number
        self._operator: Optional[Operator] = None
        self._masters: Dict[int, Master] = {}

    def operator(self) -> Operator:
        """Returns the operator of this line, the same one each time until it is closed."""
        if self._operator is None or not self._operator.is_open:
            name = f"operator of line {self.number}"
            self._operator = Operator.over(OperatorSession(self, name), name)
        return self._operator

    def master(self, address: int) -> Master:
        """Returns the master with this address, the same one until it is closed. Raises NotAccepted if it is none."""
        master = self._masters.get(address)
        if master is None or not master.is_open:
            name = f"master {address} of line {self.number}"
            if self.rack.feed(self.number, address, b"") is None:
                raise NotAccepted(f"{name}: it is no master of this line")
            master = self._masters[address] = Master.over(MasterSession(self, address, name), address, name)
        return master

    def journal(self) -> Journal:
        """Returns the journal of this line as it is. The program rackd reads it."""
        return Journal(self.rack.program, self.rack.text, self.audit())

    def audit(self) -> bytes:
        """Returns the audit text of this line. Raises RackError if an endless line has forgotten entries."""
        return self.rack.audit(self.number)

    def why(self, place: int) -> Reason:
        """Returns why the entry at a place of the journal has its outcome. Raises RackError if there is no such entry."""
        return self.rack.why(self.number, place)

    def stream(self, master: int, octets: bytes) -> bytes:
        """Sends octets of a master's stream, in any pieces, and returns the replies that they complete."""
        replies = b""
        while True:
            taken = self.rack.feed(self.number, master, octets)
            if taken is None:
                raise NotAccepted(f"{master} is no master of line {self.number}")
            octets = octets[taken:]
            replies += self.rack.replies(self.number, master)
            if not octets:
                return replies

    def operate(self, command: bytes) -> bytes:
        """Obeys a line of an operator, without its LF, and returns its answer as an operator's port gives it."""
        return self.rack.operate(self.number, command)


class EmbeddedRack:
    """A rack in this process, also as a context manager. It has the methods of `rackd.Rack` that need no server.

    The same calls give the same answers each time. Time passes only by `tick` of an operator. `text` is that of the rack
    file. Not for several threads at the same time.
    """

    def __init__(self, toml: Union[str, "os.PathLike[str]"], *, endless: bool = False, library: Optional[str] = None,
                 program: Optional[str] = None) -> None:
        """Opens the rack. Raises RackFault if the rack file is refused.

        `toml` is the text of a rack file if it has a line feed, and a path if not. With `endless` the lines forget old
        entries. `library` is that of `find_library`; `program` reads journals, and is that of `find_program`.
        """
        self.text = toml.encode() if isinstance(toml, str) and "\n" in toml else Path(toml).read_bytes()
        self._program = program
        self._library = ctypes.CDLL(find_library(library))
        self._rack = ctypes.c_void_p()
        self._room = ctypes.create_string_buffer(MOST_TEXT)
        self._count, self._number = ctypes.c_size_t(), ctypes.c_uint32()
        self._rule, self._piece = ctypes.c_uint8(), ctypes.c_uint8()
        self._lock = threading.RLock()
        fault = self._library.rackd_open(ctypes.byref(self._rack), self.text, ctypes.c_size_t(len(self.text)),
                                         ctypes.c_bool(endless))
        if fault != OK:
            raise RackFault("the rack is refused", fault, [f"rack {FAULTS[fault]}", *self._cause()])
        self._lines = {number: EmbeddedLine(self, number) for number in range(256) if self._entries(number) is not None}

    def __enter__(self) -> EmbeddedRack:
        return self

    def __exit__(self, kind: Optional[Type[BaseException]], error: Optional[BaseException],
                 trace: Optional[TracebackType]) -> None:
        self.close()

    def __del__(self) -> None:
        if getattr(self, "_rack", None):
            self.close()

    @property
    def is_open(self) -> bool:
        """Whether the rack is not closed."""
        return bool(self._rack.value)

    @property
    def lines(self) -> List[EmbeddedLine]:
        """The lines, in ascending order of their numbers."""
        return list(self._lines.values())

    @property
    def program(self) -> str:
        """The path of the program that reads journals."""
        return find_program(self._program)

    def line(self, number: int) -> EmbeddedLine:
        """Returns the line with this number. Raises RackError if the rack has no such line."""
        if number not in self._lines:
            raise RackError(f"the rack has no line {number}; it has {', '.join(map(str, self._lines))}")
        return self._lines[number]

    def close(self) -> None:
        """Closes the rack. A second call does nothing."""
        with self._lock:
            if self.is_open:
                self._library.rackd_close(ctypes.byref(self._rack))

    # ---- the functions of the library

    def feed(self, line: int, master: int, octets: bytes) -> Optional[int]:
        """Returns how many octets a master's stream took, None if the line has no such master."""
        done = self._call("rackd_feed", ctypes.c_uint8(line), ctypes.c_uint8(master), octets,
                          ctypes.c_size_t(len(octets)), ctypes.byref(self._count))
        return self._count.value if done == OK else None

    def replies(self, line: int, master: int) -> bytes:
        """Takes all whole pieces of a master's stream, and returns the replies."""
        replies = b""
        while True:
            piece = self.next_piece(line, master)
            if piece is None:
                return replies
            replies += piece.reply

    def next_piece(self, line: int, master: int) -> Optional[Piece]:
        """Takes the next piece of a master's stream, and returns it, or None if what is left is not whole."""
        self._call("rackd_next", ctypes.c_uint8(line), ctypes.c_uint8(master), ctypes.byref(self._piece), self._room,
                   ctypes.c_size_t(MOST_REPLY), ctypes.byref(self._count), ctypes.byref(self._rule),
                   ctypes.byref(self._number))
        if self._piece.value == FRAME:
            return Piece(self._room.raw[:self._count.value], self.rule_name(self._rule.value), self._number.value or None)
        if self._piece.value in DROPPED:
            return Piece(dropped=self._count.value, fault=DROPPED[self._piece.value])
        return None

    def rule_name(self, rule: int) -> str:
        """Returns the name of the rule of this number, `` if there is none."""
        room, count = ctypes.create_string_buffer(MOST_REPLY), ctypes.c_size_t()
        self._library.rackd_rule_name(ctypes.c_uint8(rule), room, ctypes.c_size_t(MOST_REPLY), ctypes.byref(count))
        return room.raw[:count.value].decode()

    def operate(self, line: int, command: bytes) -> bytes:
        """Obeys a line of an operator, and returns its answer."""
        done = self._call("rackd_operate", ctypes.c_uint8(line), command, ctypes.c_size_t(len(command)), self._room,
                          ctypes.c_size_t(MOST_TEXT), ctypes.byref(self._count))
        return b"fault NotACommand\n" if done == NO_COMMAND else self._room.raw[:self._count.value]

    def audit(self, line: int) -> bytes:
        """Returns the audit text of a line. Raises RackError if an endless line has forgotten entries."""
        return b"".join(self.row(line, place) for place in range((self._entries(line) or 0) + 1))

    def row(self, line: int, place: int) -> bytes:
        """Returns the row of an entry of the audit text of a line, or its header for place 0. Raises RackError if there is none."""
        if self._call("rackd_row", ctypes.c_uint8(line), ctypes.c_uint32(place), self._room, ctypes.c_size_t(MOST_TEXT),
                      ctypes.byref(self._count)) != OK:
            raise RackError(f"line {line} has no entry {place}, or has forgotten it")
        return self._room.raw[:self._count.value]

    def why(self, line: int, place: int) -> Reason:
        """Returns why the entry at a place of the journal of a line has its outcome: its sentence and its facts.

        It takes the entries before it again, so it costs as much time as they did. Raises RackError if there is no such
        entry, or if an endless line has forgotten it or one before it.
        """
        facts, room = FactsInC(), ctypes.create_string_buffer(MOST_TEXT)
        while True:
            done = self._call("rackd_why", ctypes.c_uint8(line), ctypes.c_uint32(place), room,
                              ctypes.c_size_t(len(room)), ctypes.byref(self._count), ctypes.byref(facts))
            if done == OK:
                return Reason(room.raw[:self._count.value].decode(), facts.facts())
            if done != SHORT_ROOM:
                raise RackError(f"line {line} has no entry {place}, or has forgotten entries")
            room = ctypes.create_string_buffer(self._count.value)

    def _entries(self, line: int) -> Optional[int]:
        done = self._call("rackd_entries", ctypes.c_uint8(line), ctypes.byref(self._number))
        return self._number.value if done == OK else None

    def _cause(self) -> List[str]:
        """Returns the cause for which the text of the rack file is refused, if there is one."""
        self._library.rackd_cause(self.text, ctypes.c_size_t(len(self.text)), self._room, ctypes.c_size_t(MOST_TEXT),
                                  ctypes.byref(self._count))
        cause = self._room.raw[:min(self._count.value, MOST_TEXT)].decode()
        return [f"  {cause}"] if cause else []

    def _call(self, name: str, *words: object) -> int:
        with self._lock:
            if not self.is_open:
                raise SessionEnded("the rack was closed")
            return int(getattr(self._library, name)(ctypes.byref(self._rack), *words))
