"""The progress of `rackd check` and `rackd explain` on a long text: it is shown on a terminal only, and cleared at the end.

It is shown once a text was read for two seconds. So the second read of the text is held up for longer.
"""
import os
import pty
import re
import subprocess
import threading

import pytest

from support.processes import PATIENCE
from support.watched_calls import CallWatch
from support.watched_writes import path_of

# The entries of a text whose progress is shown, and the seconds for which a read of it is held up.
SHOWN, HELD = 50_000, 2.6
# What is shown of the progress, and what clears it.
PROGRESS = re.compile(rb"\r  ([0-9]+) %, ([0-9]+) entries a second ")
CLEARED = re.compile(rb"\r +\r$")
RACK = '[[line]]\nnumber = 1\ncapacity = 2\nmasters = [1]\n[[line.slave]]\naddress = 5\nident = 1\ncfg = "2111"\n'


class HeldRead(CallWatch):
    """Holds up the second read of a program from the file with this path."""

    # read, pread64, readv
    CALLS = (0, 17, 19)

    def __init__(self, path):
        self.reads, self._path = 0, str(path)
        super().__init__()

    def asked(self, question):
        is_text = path_of(question.thread, question.words[0]) == self._path
        self.reads += is_text
        if is_text and self.reads == 2:
            self.hold(question, HELD)
        else:
            self.go_on(question)


class Terminal:
    """A pseudo terminal, and what was written to it, which is all there once its context has ended."""

    def __enter__(self):
        self._here, self.there = pty.openpty()
        self.seen = b""
        self._reader = threading.Thread(target=self._read, daemon=True)
        self._reader.start()
        return self

    def _read(self):
        try:
            while octets := os.read(self._here, 4096):
                self.seen += octets
        except OSError:
            # nobody has the other side any more
            return

    def __exit__(self, *_):
        os.close(self.there)
        self._reader.join(PATIENCE)
        os.close(self._here)


@pytest.fixture(name="files")
def fixture_files(tmp_path):
    """The paths of a rack file and of a long text of its line."""
    (tmp_path / "rack.toml").write_text(RACK)
    rows = "".join(f"{place} tick 1 | none | released\n" for place in range(1, SHOWN + 1))
    (tmp_path / "text").write_text(f"rack-audit 3 line 1\n{rows}")
    return tmp_path / "rack.toml", tmp_path / "text"


@pytest.fixture(name="held")
def fixture_held(program, files):
    """A function that runs a command on the long text, a read of which is held up, and returns its status and output."""
    def held(command, *words, stdout=subprocess.PIPE, stderr):
        watch = HeldRead(files[1])
        done = subprocess.run([program, command, *files, *words], stdin=subprocess.DEVNULL, stdout=stdout, stderr=stderr,
                              timeout=PATIENCE, check=False, preexec_fn=watch.ask)
        assert watch.reads > 2, "the text is not read in parts"
        return done.returncode, done.stdout

    return held


def assert_progress(seen):
    """Fails unless a progress was shown and cleared, and nothing else was."""
    shown = PROGRESS.findall(seen)
    assert shown
    assert CLEARED.search(seen)
    assert CLEARED.sub(b"", PROGRESS.sub(b"", seen)) == b""
    percents = [int(percent) for percent, _ in shown]
    assert percents == sorted(percents)
    assert 0 <= percents[0] and percents[-1] <= 100
    assert all(int(rate) > 0 for _, rate in shown)


def test_progress_of_a_check(held):
    """It is shown on the terminal that is standard error, and cleared."""
    with Terminal() as terminal:
        done = held("check", stderr=terminal.there)
    assert done == (0, b"legal %d\n" % SHOWN)
    assert_progress(terminal.seen)


def test_progress_before_a_verdict(held):
    """On the same terminal as the verdict it is cleared before that is written."""
    verdict = b"legal %d\r\n" % SHOWN
    with Terminal() as terminal:
        assert held("check", stdout=terminal.there, stderr=terminal.there)[0] == 0
    assert terminal.seen.endswith(b"\r" + verdict)
    assert_progress(terminal.seen[:-len(verdict)])


def test_progress_of_an_explanation(held):
    """That of an explanation is shown if its entries are not written to the terminal."""
    with Terminal() as terminal:
        status, output = held("explain", "--to", "1", stderr=terminal.there)
    assert (status, output.splitlines()[-1]) == (0, b"legal %d" % SHOWN)
    assert_progress(terminal.seen)


@pytest.mark.parametrize(("words", "is_shown"), [(["--summary"], True), (["--to", "1"], False)], ids=["summary", "entries"])
def test_progress_beside_an_explanation(held, words, is_shown):
    """On the terminal of the explanation it is shown beside a summary, and not among entries."""
    with Terminal() as terminal:
        assert held("explain", *words, stdout=terminal.there, stderr=terminal.there)[0] == 0
    assert bool(PROGRESS.search(terminal.seen)) == is_shown


def test_no_progress_in_a_file(held, tmp_path):
    """Nothing is shown if standard error is no terminal."""
    with open(tmp_path / "errors", "wb") as errors:
        assert held("check", stderr=errors)[0] == 0
    assert (tmp_path / "errors").read_bytes() == b""


def test_no_progress_of_a_short_text(program, tmp_path, files):
    """Nothing is shown of a text that is read at once."""
    (tmp_path / "short").write_text("rack-audit 3 line 1\n1 tick 1 | none | released\n")
    with Terminal() as terminal:
        subprocess.run([program, "check", files[0], tmp_path / "short"], stdin=subprocess.DEVNULL, stdout=subprocess.DEVNULL,
                       stderr=terminal.there, timeout=PATIENCE, check=True)
    assert terminal.seen == b""
