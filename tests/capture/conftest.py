"""Fixtures of the tests of `rackd capture`."""
import subprocess
from typing import NamedTuple

import pytest

from support.captured_texts import find_tshark
from support.processes import PATIENCE


class Captured(NamedTuple):
    """How a capture ended: its status, its octets, and what is on standard error."""

    status: int
    octets: bytes
    errors: str


@pytest.fixture
def capture(program):
    """A function that captures audit texts by a rack file, and returns the octets of the capture as they are."""
    def call(rack, *audits):
        words = [program, "capture", str(rack), *map(str, audits)]
        done = subprocess.run(words, stdin=subprocess.DEVNULL, capture_output=True, timeout=PATIENCE, check=False)
        return Captured(done.returncode, done.stdout, done.stderr.decode(errors="backslashreplace"))

    return call


@pytest.fixture(scope="session")
def tshark():
    """The path of tshark. The tests that need it are skipped where it is not installed."""
    found = find_tshark()
    if found is None:
        pytest.skip("tshark is not installed")
    return found
