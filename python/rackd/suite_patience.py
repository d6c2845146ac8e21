"""How long a suite waits."""
from __future__ import annotations

import threading
import time


class Stopped(Exception):
    """The suite ends before the scenario is over."""


class Patience:
    """How long the steps of a scenario may take together, and its master until it has connected, in seconds."""

    def __init__(self, seconds: float, connect: float) -> None:
        self.seconds, self.connect = seconds, connect
        self._until = 0.0
        self._stopped = threading.Event()

    def begin(self) -> None:
        """Begins the time of the steps."""
        self._until = time.monotonic() + self.seconds

    def stop(self) -> None:
        """Ends the scenario at its next wait."""
        self._stopped.set()

    def is_stopped(self) -> bool:
        """Whether the scenario ends at its next wait."""
        return self._stopped.is_set()

    def is_over(self) -> bool:
        """Whether the time of the steps has passed."""
        return time.monotonic() > self._until

    def is_late(self, started: float) -> bool:
        """Whether a master that was started at this moment of the monotonic clock has had its time to connect."""
        return time.monotonic() > started + self.connect

    def rest(self, seconds: float) -> None:
        """Waits. Raises Stopped if the suite ends."""
        if self._stopped.wait(seconds):
            raise Stopped
