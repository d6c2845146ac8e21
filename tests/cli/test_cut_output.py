"""Standard output that takes fewer octets than are written: what is there then, and the status."""
import resource
import signal
import subprocess

import pytest

from support.line_rows import LineOfRows, text_of
from support.processes import PATIENCE

COMMANDS = ["tick 10", "m 1 680c0c6885815d3d3e8802050b80a1019a16", "halt", "journal"]
ANSWERS = "released\n1: reply e5 Done\nreleased 5\n"
JOURNAL = text_of([
    "rack-audit 2 line 1",
    "1 tick 10 | none | released",
    "2 req 1 680c0c6885815d3d3e8802050b80a1019a16 | WaitPrm none | reply e5 Done",
    "3 halt | none | released 5",
])
OUTPUT = ANSWERS + JOURNAL


def limited(program, path, most):
    """Runs a script whose output goes to a file of at most so many octets; returns the status, the output and the errors."""
    def limit():
        signal.signal(signal.SIGXFSZ, signal.SIG_IGN)
        resource.setrlimit(resource.RLIMIT_FSIZE, (most, most))

    text = text_of([LineOfRows().rack + "%%", *COMMANDS]).encode()
    with open(path, "wb") as output:
        done = subprocess.run([program], input=text, stdout=output, stderr=subprocess.PIPE, preexec_fn=limit, timeout=PATIENCE,
                              check=False)
    return done.returncode, path.read_text(encoding="ascii"), done.stderr.decode()


@pytest.mark.parametrize("most", [
    pytest.param(4, id="within-an-answer"), pytest.param(len(ANSWERS) + 4, id="within-the-header"),
    pytest.param(len(ANSWERS) + 30, id="within-an-entry"), pytest.param(len(OUTPUT) - 1, id="before-the-last-LF")])
def test_output_that_is_cut(program, tmp_path, most):
    """A write that takes less than it was given is not the end: the next one fails, and that is the status."""
    assert limited(program, tmp_path / "output", most) == (4, OUTPUT[:most], "rackd: cannot write\n")


def test_output_that_just_fits(program, tmp_path):
    assert limited(program, tmp_path / "output", len(OUTPUT)) == (0, OUTPUT, "")
