"""Releases that dist/release makes."""
import importlib.util
import os
import shutil
import sys
from pathlib import Path

import pytest

from support.processes import PATIENCE, run_program
from support.repository import TOP

# The modules that a release needs beside rt.
NEEDED = ("pip", "setuptools", "wheel")


def make_release(folder, program, **variables):
    """Runs dist/release with a program into a folder. Returns the path of the archive."""
    missing = [name for name in NEEDED if importlib.util.find_spec(name) is None]
    missing += [] if shutil.which("rt") else ["rt"]
    if missing:
        pytest.skip(f"{' and '.join(missing)}: not installed")
    done = run_program([sys.executable, TOP / "dist/release", "--program", program, folder], env={**os.environ, **variables},
                       within=4 * PATIENCE)
    assert (done.status, done.errors) == (0, ""), done
    return Path(done.output.strip())
