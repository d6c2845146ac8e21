"""A client of a line's operator port."""
from __future__ import annotations

import threading
import time
from dataclasses import dataclass
from enum import Enum
from typing import List, Optional

from .connection import Connection, Ended, Session, still_there
from .faults import OPERATOR_REFUSALS, NoReply, OperatorRefused

# Seconds that an answer may take. Operators of one line are served one after another.
ANSWER_TIME = 5.0


class State(str, Enum):
    """The state of a slave."""

    WAIT_PRM = "WaitPrm"
    WAIT_CFG = "WaitCfg"
    DATA_EXCH = "DataExch"


@dataclass(frozen=True)
class Show:
    """A slave as the operator sees it.

    `holder` is None if nobody holds it; `inputs` are those of the device; `watchdog` is what the watchdog has left in
    units of 10 ms, or None if none runs.
    """

    address: int
    state: State
    holder: Optional[int]
    inputs: bytes
    outputs: bytes
    watchdog: Optional[int]


def show_of(answer: str) -> Show:
    """Returns the slave of an answer `show A STATE HOLDER in OCTETS out OCTETS wd N`."""
    _, address, state, holder, _, inputs, _, outputs, _, watchdog = answer.split(" ")
    return Show(int(address), State(state), None if holder == "none" else int(holder), octets_of(inputs),
                octets_of(outputs), None if watchdog == "off" else int(watchdog))


def octets_of(word: str) -> bytes:
    """Returns the octets of a word of an answer, `-` for none."""
    return b"" if word == "-" else bytes.fromhex(word)


def word_of(octets: bytes) -> str:
    """Returns the word for octets in a command, `-` for none."""
    return octets.hex() or "-"


class Operator:
    """An operator of a line, also as a context manager. A refusal is an exception with its name, as `NoStation`."""

    def __init__(self, port: int, ended: Ended = still_there) -> None:
        """Connects to the port `operator` of a line."""
        name = f"operator of port {port}"
        self._begin(Connection(port, name, ended), name)

    @classmethod
    def over(cls, connection: Session, name: str) -> Operator:
        """Returns an operator over a connection that exists. `name` is what messages call it."""
        operator = cls.__new__(cls)
        operator._begin(connection, name)
        return operator

    def _begin(self, connection: Session, name: str) -> None:
        self._name = name
        self.is_open = True
        self._lock = threading.Lock()
        self._buffer = b""
        self._connection = connection

    def __enter__(self) -> Operator:
        return self

    def __exit__(self, *_: object) -> None:
        self.close()

    def close(self) -> None:
        """Ends the connection."""
        self.is_open = False
        self._connection.close()

    def input(self, address: int, octets: bytes) -> None:
        """Sets the inputs of a slave."""
        self.ask(f"in {address} {word_of(octets)}")

    def diag(self, address: int, extended: bytes = b"", *, ext_diag: bool = False, stat_diag: bool = False,
             overflow: bool = False) -> None:
        """Reports a diagnosis: the three bits, and up to 238 octets of extended diagnosis."""
        flags = ("e" if ext_diag else "") + ("s" if stat_diag else "") + ("o" if overflow else "")
        self.ask(f"diag {address} {flags or '-'} {word_of(extended)}")

    def busy(self, address: int, point: Optional[int] = None, on: bool = True) -> None:
        """Marks an access point of a slave busy, or no longer. None is the default point (Data_Exchange)."""
        self.ask(f"busy {address} {'default' if point is None else point} {'on' if on else 'off'}")

    def tick(self, units: int = 1) -> List[int]:
        """Lets a number of units of 10 ms pass, and returns the slaves that were released, ascending."""
        return numbers_of(self.ask(f"tick {units}"))

    def halt(self) -> List[int]:
        """Halts the line permanently, and returns the slaves that were released, ascending."""
        return numbers_of(self.ask("halt"))

    def owned(self, master: int) -> List[int]:
        """Returns the slaves that a master holds, oldest lock first."""
        return numbers_of(self.ask(f"owned {master}"))

    def show(self, address: int) -> Show:
        """Returns a slave as it is."""
        return show_of(self.ask(f"show {address}"))

    def step(self) -> int:
        """Updates the inputs of each slave whose device is not still, and returns how many inputs were recorded."""
        return numbers_of(self.ask("step"))[0]

    def ask(self, command: str) -> str:
        """Sends a line and returns the answer. Raises the refusal, or after five seconds NoReply, which ends it."""
        if "\n" in command:
            raise ValueError("a command is one line")
        with self._lock:
            self._connection.send(command.encode() + b"\n")
            answer = self._answer(command)
        word, _, name = answer.partition(" ")
        if word in ("refused", "fault"):
            raise OPERATOR_REFUSALS.get(name, OperatorRefused)(f"{command}: {answer}")
        return answer

    def _answer(self, command: str) -> str:
        until = time.monotonic() + ANSWER_TIME
        while b"\n" not in self._buffer:
            more = self._connection.receive(until - time.monotonic())
            if not more:
                # a later answer would be taken for that of the next command
                self.close()
                raise NoReply(f"{self._name}: no answer to {command!r}; does another operator use this line?")
            self._buffer += more
        answer, _, self._buffer = self._buffer.partition(b"\n")
        return answer.decode()


def numbers_of(answer: str) -> List[int]:
    """Returns the numbers behind the first word of an answer."""
    return [int(word) for word in answer.split(" ")[1:]]
