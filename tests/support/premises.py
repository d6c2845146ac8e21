"""What tests about time suppose: that their own process and the program were not held up.

A test that measures a time measures this too. If it doesn't hold, the test says nothing about the program: it is tried
again, three times at most, and then skipped with the reason.
"""
import contextlib
import functools
import time
from pathlib import Path

import pytest

TRIES = 3


class PremiseFailed(Exception):
    """What a test supposes about the machine does not hold."""


def suppose(holds, reason):
    """Ends this try of a test unless what it supposes holds."""
    if not holds:
        raise PremiseFailed(reason)


def tried_again(test):
    """Has a test tried up to three times while what it supposes does not hold, and skipped then."""
    @functools.wraps(test)
    def tries(*words, **fixtures):
        reasons = []
        for _ in range(TRIES):
            try:
                return test(*words, **fixtures)
            except PremiseFailed as failed:
                reasons.append(str(failed))
        pytest.skip("; ".join(reasons))

    return tries


def waited(pid="self"):
    """Returns for how many seconds the threads of a process, added up, were ready and had no processor."""
    nanoseconds = 0
    for path in Path(f"/proc/{pid}/task").glob("*/schedstat"):
        with contextlib.suppress(OSError):
            nanoseconds += int(path.read_text(encoding="ascii").split()[1])
    return nanoseconds / 1e9


def pressure(kind):
    """Returns for how many seconds any thread of the machine waited for a processor ("cpu"), for memory ("memory") or for a
    disk ("io"); None if the system gives none."""
    try:
        rows = Path(f"/proc/pressure/{kind}").read_text(encoding="ascii")
    except OSError:
        return None
    return int(rows.split("total=")[1].split()[0]) / 1e6


def stalled():
    """Returns for how many seconds any thread of the machine waited for memory or a disk; 0 if the system gives none."""
    return (pressure("memory") or 0.0) + (pressure("io") or 0.0)


class Measured:
    """The seconds of a `with measured(..)`, for how many of them one process was held up, and for how many all were, added up.

    A machine that waits for memory or a disk holds up each process.
    """

    def __init__(self, processes, has_ending):
        self._processes, self._has_ending = processes, has_ending
        self._begun, self._before = time.monotonic(), [waited(process) for process in processes]
        self._pressure, self._stalled = pressure("cpu") if has_ending else None, stalled()
        self.seconds = self.held_up = self.all_held_up = 0.0

    def end(self):
        self.seconds = time.monotonic() - self._begun
        stall = stalled() - self._stalled
        waits = [waited(process) - before for process, before in zip(self._processes, self._before)]
        self.held_up, self.all_held_up = max(waits) + stall, sum(waits) + stall
        if self._has_ending:
            cpu = self.seconds if self._pressure is None else pressure("cpu") - self._pressure
            self.held_up = max(self.held_up, cpu + stall)


@contextlib.contextmanager
def measured(*pids, has_ending=False):
    """Measures the time of what is done in it, and for how long this process and those with these numbers were held up.

    Only threads count that are there at its end: those that are started for it have to stay until then. With `has_ending`
    there is a process that ends in this time. Nobody knows afterwards for how long its threads were held up. So what counts is
    the time in which any thread of the machine was, or the whole time if the system gives none.
    """
    found = Measured(["self", *pids], has_ending)
    try:
        yield found
    finally:
        found.end()
