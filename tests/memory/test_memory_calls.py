"""Calls of the libraries that take memory: with ample memory each succeeds; if one of its allocations or the start of a worker is
refused, it returns that, and succeeds when it is made again.

The program of crates/test_memory_calls makes the call that its word names, once more if it was refused, and its status is
the result.
"""
import itertools
import os
import subprocess
import sys
from pathlib import Path

import pytest

from support.processes import PATIENCE

pytestmark = pytest.mark.slow

SUPPORT = Path(__file__).parents[1] / "support"
CALLS = ["line", "book", "endless-book", "check-text", "shared-line", "endless-line", "claims", "pool", "rack", "script", "check"]
# What a status of the program means.
SUCCEEDED, REFUSED, REFUSED_BEFORE = 0, 3, 5
# What the scripts end with that refuse something: nothing was refused, and the system does not let them.
NOTHING_FAILED, CANNOT_REFUSE = 96, 98


@pytest.fixture(scope="session")
def calls():
    """The path of the program that makes calls."""
    path = os.environ.get("MEMORY_CALLS") or Path(__file__).parents[2] / "crates/test_memory_calls/out/test_memory_calls"
    if not os.access(path, os.X_OK):
        pytest.skip("crates/test_memory_calls is not built, which rt ci does")
    return str(path)


def status_of(*words):
    """Runs a command, and returns its status."""
    return subprocess.run([str(word) for word in words], capture_output=True, timeout=PATIENCE, check=False).returncode


@pytest.mark.parametrize("word", CALLS)
def test_ample_memory(calls, word):
    assert status_of(calls, word) == SUCCEEDED


@pytest.mark.parametrize("word", CALLS)
def test_one_allocation_fails(calls, word):
    """Each allocation fails alone; those before the call are of what it takes."""
    refused = 0
    for number in itertools.count(1):
        status = status_of(sys.executable, SUPPORT / "fail_allocation.py", number, calls, word)
        if status == CANNOT_REFUSE:
            pytest.skip("no program can be followed on this system (ptrace)")
        if status == NOTHING_FAILED:
            break
        assert status in (REFUSED, REFUSED_BEFORE), f"when allocation {number} fails alone"
        refused += status == REFUSED
    assert refused > 0, "the call was never refused"


@pytest.mark.parametrize("started", [0, 1])
def test_one_start_of_a_worker_fails(calls, started):
    """The pool has two workers. The start of a worker is refused once, after a number of workers has started."""
    status = status_of(sys.executable, SUPPORT / "refused_threads.py", f"{started},1", calls, "pool")
    if status == CANNOT_REFUSE:
        pytest.skip("threads cannot be refused on this system (seccomp)")
    assert status == REFUSED
