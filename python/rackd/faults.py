"""Exceptions of the package, each with the name that the rack or the standard gives it."""
from __future__ import annotations

import signal
from typing import Optional, Sequence, Tuple


class RackError(Exception):
    """The base of all exceptions of this package."""


class RackFault(RackError):
    """The program rackd could not start, ended before it should, or failed at its end.

    `status` is the exit status, -N if signal N ended the program, or None if there is none. `rows` has the rows of
    standard error but for the log: `row` is the first, which names the fault, `cause` the second, if there is one.
    """

    def __init__(self, what: str, status: Optional[int] = None, rows: Sequence[str] = ()) -> None:
        super().__init__("\n".join([what, *rows]))
        self.status = status
        self.rows: Tuple[str, ...] = tuple(rows)
        self.row: str = rows[0] if rows else ""
        self.cause: Optional[str] = rows[1].strip() if len(rows) > 1 else None


class NoProgram(RackFault):
    """There is no program rackd to start."""


class NotLegal(RackError):
    """The journal of a line is not one that this rack could have written, by `rackd check`.

    `line` is the number of the line, `verdict` what `check` printed, and `folder` has the files.
    """

    def __init__(self, line: int, verdict: str, rows: Sequence[str], folder: str) -> None:
        super().__init__("\n".join([f"the journal of line {line} is not legal: {verdict}", *rows, f"see {folder}"]))
        self.line = line
        self.verdict = verdict
        self.folder = folder


class NotAccepted(RackError, ConnectionError):
    """The rack did not accept a session of a master."""


class SessionEnded(RackError, ConnectionError):
    """The connection to a line has ended while the rack is still there."""


class NoReply(RackError):
    """Nothing came within the time for a reply."""


class Refused(RackError):
    """The base of all refusals, by a slave, to an operator, or by a cable."""


class SlaveRefused(Refused):
    """A slave refused a request. The journal has the rule that decided."""


class UE(SlaveRefused):
    """User error (function code 1): the point does not take this number of octets."""


class RR(SlaveRefused):
    """No resource (function code 2): the operator has marked the point busy."""


class RS(SlaveRefused):
    """Service not activated (function code 3): the point is not for this master, or not in this state."""


class OperatorRefused(Refused):
    """The line refused an operator's command."""


class NoStation(OperatorRefused):
    """No slave of the line has this address."""


class WrongLength(OperatorRefused):
    """The inputs are not as long as those of the slave."""


class UnknownPoint(OperatorRefused):
    """The slave has no such access point."""


class Halted(OperatorRefused):
    """The line is halted, or only the last place of its journal is left."""


class NotACommand(OperatorRefused):
    """The line sent is no command."""


class TooLong(OperatorRefused):
    """The line sent has more than 1,024 octets."""


class TooMany(Refused):
    """Too many lines of a cable wait for replies."""


class BadFrame(RackError):
    """The base of what is wrong with octets that are no single frame."""


class NoStart(BadFrame):
    """The first octet begins no frame."""


class BadHead(BadFrame):
    """The head of an SD2 is wrong."""


class BadEnd(BadFrame):
    """The check sequence or the end delimiter is wrong."""


class Short(BadFrame):
    """The frame is not whole."""


class Long(BadFrame):
    """Octets follow the frame."""


SLAVE_REFUSALS = {1: UE, 2: RR, 3: RS}
OPERATOR_REFUSALS = {kind.__name__: kind
                     for kind in (NoStation, WrongLength, UnknownPoint, Halted, NotACommand, TooLong)}
CABLE_REFUSALS = {kind.__name__: kind for kind in (NotACommand, TooMany)}


def end_of(status: int) -> str:
    """Returns how a program ended, in words."""
    if status >= 0:
        return f"ended with status {status}"
    try:
        return f"was ended by signal {-status} ({signal.Signals(-status).name})"
    except ValueError:
        return f"was ended by signal {-status}"
