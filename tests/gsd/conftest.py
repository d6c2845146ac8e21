"""Fixtures of the tests of `rackd gsd` and `rackd slave`."""
import subprocess
from pathlib import Path

import pytest

from support.processes import PATIENCE

# The GSD files that were written by hand, and what has to be read of them.
BY_HAND = Path(__file__).resolve().parent
# A slave with two configurations.
RACK = """[[line]]
number = 7
capacity = 100
masters = [1]
[[line.slave]]
address = 9
ident = 0x0A5F
cfg = ["2111", "4F00C101030010"]
sync = true
user_max = 12
failsafe = true
"""


@pytest.fixture
def by_hand():
    """The folder of the GSD files that were written by hand."""
    return BY_HAND


@pytest.fixture
def rack_text():
    """The text of a rack file with a slave at line 7, address 9."""
    return RACK


@pytest.fixture
def rack(tmp_path):
    """The path of that rack file."""
    path = tmp_path / "rack.toml"
    path.write_text(RACK, encoding="ascii")
    return path


@pytest.fixture
def file_of(tmp_path):
    """A function that writes octets to a file in the folder of the test, and returns its path."""
    def write(name, octets):
        path = tmp_path / name
        path.write_bytes(octets)
        return path

    return write


@pytest.fixture
def written(program):
    """A function that runs the program with these words, which it has to accept, and returns the octets that it writes."""
    def call(*words):
        done = subprocess.run([program, *map(str, words)], stdin=subprocess.DEVNULL, capture_output=True, timeout=PATIENCE,
                              check=False)
        assert (done.returncode, done.stderr) == (0, b"")
        return done.stdout

    return call


@pytest.fixture
def refused(run):
    """A function that checks that the program refuses these words: the status is 2, nothing is written, and this is reported."""
    def check(report, *words):
        assert run(*words) == (2, "", report)

    return check


@pytest.fixture
def read_back(written, file_of):
    """A function that reads each configuration back from a GSD file that the program wrote, as a slave of a rack file."""
    tomllib = pytest.importorskip("tomllib", reason="tomllib of Python 3.11 is not installed")

    def read(text, count):
        path, slaves = file_of("slave.gsd", text), []
        for number in range(count):
            back = written("slave", path, "--module", f"Configuration {number}")
            slaves += tomllib.loads("[[line]]\n" + back.decode())["line"][0]["slave"]
            assert len(slaves) == number + 1
        return slaves

    return read
