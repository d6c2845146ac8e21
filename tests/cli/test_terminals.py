"""Standard input and standard output that are terminals."""
import contextlib
import os
import pty
import subprocess

import pytest

from support.command_lines import RACK, REPLY, SLAVE_DIAG
from support.processes import PATIENCE, Done

# What ends the input of a terminal.
END_OF_INPUT = b"\x04"


@contextlib.contextmanager
def terminal():
    """A new terminal: what is at it, and what the program has as one of its streams."""
    here, there = pty.openpty()
    try:
        yield here, there
    finally:
        os.close(here)
        os.close(there)


def run_at(program, *words, **streams):
    """Runs the program with a terminal as one of its streams; the others are empty or are read."""
    chosen = {"stdin": subprocess.DEVNULL, "stdout": subprocess.PIPE, **streams}
    return subprocess.run([program, *words], stderr=subprocess.PIPE, timeout=PATIENCE, text=True, check=False, **chosen)


@pytest.fixture
def at_terminal(program, files):
    """A function that runs the program with these words and a terminal as standard output."""
    def call(*words):
        with terminal() as (here, there):
            ended = run_at(program, *words, stdout=there, cwd=files / "f")
            os.set_blocking(here, False)
            try:
                output = os.read(here, 65536).decode()
            except BlockingIOError:
                output = ""
        return Done(ended.returncode, output, ended.stderr)

    return call


def test_what_is_read_is_said_first(program):
    with terminal() as (here, there):
        os.write(here, f"{RACK}%%\n{SLAVE_DIAG}".encode() + END_OF_INPUT)
        ended = run_at(program, stdin=there)
    assert (ended.returncode, ended.stdout) == (0, REPLY)
    assert ended.stderr == "rackd reads a rack, a line %% and a script from here; 'rackd --help' has its other forms\n"


@pytest.mark.parametrize("names", [("rack", "audit"), ("none", "none")], ids=["files", "no-file-is-read"])
def test_capture_is_not_written_to_a_terminal(at_terminal, names):
    assert at_terminal("capture", *names) == (2, "", "rackd: standard output is a terminal\n")


def test_gsd_at_a_terminal(at_terminal):
    """A GSD file may be written to a terminal: only the rack is wrong."""
    assert at_terminal("gsd", "rack", "9", "5") == (2, "", "rackd: the rack has no line 9\n")


def test_answers_at_a_terminal(at_terminal):
    """What is written to a terminal is read here: a terminal ends rows by CR LF."""
    assert at_terminal("run", "rack", "script") == (0, REPLY.replace("\n", "\r\n"), "")
