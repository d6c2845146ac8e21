"""Finding and running the program rackd."""
from __future__ import annotations

import os
import shutil
import subprocess
from pathlib import Path
from typing import List, Optional, Sequence

from .faults import NoProgram, RackFault, end_of

# The program that the repository carries, if this package lies in a checkout, and the one of an installed package.
CARRIED = Path(__file__).resolve().parents[2] / "dist" / "x86_64-linux" / "rackd"
INSTALLED = Path(__file__).resolve().parent / "program" / "rackd"


def find_program(program: Optional[str] = None) -> str:
    """Returns the path of rackd: the one named, or else that of the variable RACKD, of the installed package, of the checkout, of
    the PATH.

    Raises NoProgram if there is none.
    """
    named = program or os.environ.get("RACKD")
    if named:
        if not os.access(named, os.X_OK) or os.path.isdir(named):
            raise NoProgram(f"{named} is no program" + ("" if program else ", see the variable RACKD"))
        return os.path.abspath(named)
    for path in INSTALLED, CARRIED:
        if os.access(path, os.X_OK):
            return str(path)
    found = shutil.which("rackd")
    if not found:
        raise NoProgram(f"there is no rackd: not in the variable RACKD, not at {INSTALLED} or {CARRIED}, and not on the PATH")
    return found


def run(program: str, words: Sequence[str], descriptors: Sequence[int] = ()) -> "subprocess.CompletedProcess[bytes]":
    """Runs a command that reads audit texts, as `check`, to its end; it has these open descriptors.

    Raises RackFault for a status other than 0 and 1.
    """
    done = subprocess.run([program, *words], stdin=subprocess.DEVNULL, capture_output=True, check=False,
                          pass_fds=descriptors)
    if done.returncode not in (0, 1):
        raise RackFault(f"rackd {words[0]} {end_of(done.returncode)}", done.returncode, rows_of(done.stderr))
    return done


def rows_of(errors: bytes, log: bool = False) -> List[str]:
    """Returns the rows of standard error that are of the log, or those that are not.

    A row of the log begins with its level, as in `[WARN  rackd]`.
    """
    return [row for row in errors.decode(errors="replace").splitlines() if row.startswith("[") == log]
