"""Why an entry of a journal has its outcome: the sentence of `rackd explain`, and its facts where the slaves are in process."""
from __future__ import annotations

import ctypes
from dataclasses import dataclass
from typing import Optional

# the number for an address, a point, a state or a detail that a reason has not (RACKD_NONE of include/rackd.h)
NONE = 255
# the names of the reasons, each at its number (RACKD_WHY_.. of include/rackd.h)
NAMES = (
    "unknown", "halted", "no_frame", "no_master", "foreign_sender", "token", "not_request", "bad_function",
    "bad_extension", "bad_broadcast", "no_station", "master_station", "live_list_poll", "status", "no_service",
    "repeat_unknown", "retry", "other_repeat", "no_point", "point_off", "not_holder", "not_listed", "busy", "length",
    "not_selected", "outputs_taken", "outputs_wait", "no_outputs", "diagnosis", "control", "wrong_parameters", "unlocked",
    "locked", "locked_again", "min_tsdr_set", "min_tsdr_stays", "wrong_configuration", "configured", "read", "to_all",
    "operator_done", "operator_refused", "ticked", "line_halted",
)


@dataclass(frozen=True)
class Facts:
    """The facts of a reason, as `rackd_facts` of include/rackd.h has them. What a reason has not is None."""

    reason: str
    slave: Optional[int]
    point: Optional[int]
    master: Optional[int]
    state: Optional[int]
    since: Optional[int]
    detail: Optional[int]
    value: int
    limit: int


@dataclass(frozen=True)
class Reason:
    """Why an entry has its outcome. `facts` is None on a rack that is served."""

    sentence: str
    facts: Optional[Facts] = None


class FactsInC(ctypes.Structure):
    """The struct `rackd_facts`."""

    _fields_ = [("since", ctypes.c_uint64), ("value", ctypes.c_size_t), ("limit", ctypes.c_size_t),
                ("reason", ctypes.c_uint8), ("slave", ctypes.c_uint8), ("point", ctypes.c_uint8),
                ("master", ctypes.c_uint8), ("state", ctypes.c_uint8), ("detail", ctypes.c_uint8)]

    def facts(self) -> Facts:
        """Returns the facts."""
        def known(octet: int) -> Optional[int]:
            return None if octet == NONE else octet

        return Facts(reason=NAMES[self.reason], slave=known(self.slave), point=known(self.point),
                     master=known(self.master), state=known(self.state), since=self.since or None,
                     detail=known(self.detail), value=self.value, limit=self.limit)
