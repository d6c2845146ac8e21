"""The master under test: a program that the suite starts for each scenario."""
from __future__ import annotations

import json
import os
import signal
import subprocess
import time
from pathlib import Path
from typing import Dict, List, Optional, Sequence

from .faults import end_of

# Seconds that it may take to end after SIGTERM.
END_TIME = 5.0
# The begin of the variables that have one value of one slave.
SLAVE = "RACKD_SLAVE_"


class CannotRun(Exception):
    """The suite cannot run, whatever the master does."""


class MasterProcess:
    """A process of the master under test, with the address that it has to have.

    What it writes is in the file `output`. `started` is the moment of the monotonic clock at which it was started.
    """

    def __init__(self, command: Sequence[str], output: Path, address: int, variables: Dict[str, str]) -> None:
        self.output, self.address = output, address
        self.started: Optional[float] = None
        self._command, self._variables = list(command), variables
        self._process: "Optional[subprocess.Popen[bytes]]" = None

    def start(self, port: int) -> None:
        """Starts it, with a port to connect to. Raises CannotRun if there is no such program."""
        others = {name: value for name, value in os.environ.items() if not name.startswith(SLAVE)}
        environment = {**others, **self._variables, "RACKD_PORT": str(port), "RACKD_ADDRESS": str(self.address)}
        try:
            with open(self.output, "wb") as output:
                # in a session of its own, so that all its processes can be ended
                self._process = subprocess.Popen(self._command, env=environment, stdin=subprocess.DEVNULL,
                                                 stdout=output, stderr=output, start_new_session=True)
        except OSError as error:
            raise CannotRun(f"cannot start {self._command[0]}: {error.strerror}") from None
        self.started = time.monotonic()

    def end(self) -> Optional[str]:
        """Returns how it has ended, with the last row that it wrote, and None if it runs or was not started."""
        status = None if self._process is None else self._process.poll()
        if status is None:
            return None
        return f"the master {end_of(status)}{self.last_words()}"

    def last_words(self) -> str:
        """Returns the last row that it wrote, in brackets behind a blank, and nothing if there is none."""
        rows = self.output.read_text(errors="replace").split("\n")
        last = next((row.strip() for row in reversed(rows) if row.strip()), "")
        return f" ({last})" if last else ""

    def stop(self) -> Optional[str]:
        """Ends it and the processes that it started by SIGTERM. Returns that it did not end in time, or None."""
        process, self._process = self._process, None
        if process is None:
            return None
        self._signal(process.pid, signal.SIGTERM)
        try:
            process.wait(END_TIME)
            return None
        except subprocess.TimeoutExpired:
            return f"the master did not end within {END_TIME:g} s after SIGTERM"
        finally:
            self._signal(process.pid, signal.SIGKILL)
            process.wait()

    @staticmethod
    def _signal(group: int, number: signal.Signals) -> None:
        try:
            os.killpg(group, number)
        except ProcessLookupError:
            pass


def variables_of(slaves: "Sequence[Dict[str, object]]", clear: int) -> Dict[str, str]:
    """Returns the variables that name the slaves and the mode (examples/suite/README.md)."""
    variables = {"RACKD_SLAVES": json.dumps(slaves), "RACKD_CLEAR": str(clear),
                 f"{SLAVE}ADDRESSES": " ".join(str(slave["address"]) for slave in slaves)}
    for slave in slaves:
        for name, value in slave.items():
            if name != "address":
                # true and false are 1 and 0
                plain = int(value) if isinstance(value, bool) else value
                variables[f"{SLAVE}{slave['address']}_{name.upper()}"] = str(plain)
    return variables
