"""Programs that use the Python package in processes of their own, and programs that stand in for rackd."""
import contextlib
import os
import signal
import subprocess
import sys
from pathlib import Path

import rackd

from support.clients import wait_for
from support.processes import PATIENCE, run_program

TOP = Path(__file__).resolve().parents[2]
# The folder that has the package, which is that of the repository unless a wrong one is tried.
PACKAGE = Path(rackd.__file__).resolve().parents[1]
CFG = b"\x21\x11"
IDENT = 0x80A1
# The beginning of a stand-in for rackd: it finds each journal legal, and has one line.
STAND_IN = """\
#!/bin/bash
[ "$1" != check ] || { echo legal 0; exit; }
while [ "$1" ]; do [ "$1" = --ports ] && ports=$2; shift; done
echo 'line 1 listen 1 operator 2' >"$ports"
"""
# A part of a Python program: it has a child, which lives on until somebody ends it.
CHILD = """
reading, writing = os.pipe()
children = [os.fork()]
if not children[0]:
    os.close(1)
    os.write(writing, b"1")
    time.sleep(600)
    os._exit(0)
os.read(reading, 1)
"""
# The ends of a table of such parts: one without a child, and one with it.
WITH_AND_WITHOUT_A_CHILD = {"alone": "children = []\n", "with-a-child-that-lives-on": CHILD}


def environment(folder, **variables):
    """Returns the variables of a program that imports the package, and that has its temporary files in a folder.

    What this run of pytest has told its own processes is left out.
    """
    own = {name: value for name, value in os.environ.items() if not name.startswith("PYTEST_")}
    return {**own, "PYTHONPATH": str(PACKAGE), "PYTHONDONTWRITEBYTECODE": "1", "TMPDIR": str(folder), **variables}


def run_python(folder, *words, within=PATIENCE, **variables):
    """Runs Python with these words in a folder, which is that of its temporary files too, to its end."""
    return run_program([sys.executable, *words], cwd=folder, env=environment(folder, **variables), within=within)


def run_pytest(folder, *words, plugin=True, **variables):
    """Runs pytest in a folder to its end, with the plugin of the package unless another way to it is tried."""
    loaded = ("-p", "rackd.pytest_plugin") if plugin else ()
    return run_python(folder, "-m", "pytest", *loaded, "-p", "no:cacheprovider", f"--rootdir={folder}", *words, **variables)


def restore_interrupts():
    """Has SIGINT end this process again: it is ignored by all that a shell has started in the background."""
    signal.signal(signal.SIGINT, signal.SIG_DFL)


def start_python(folder, *words, **variables):
    """Starts Python with these words in a folder, with a pipe for what it prints."""
    return subprocess.Popen([sys.executable, *map(str, words)], cwd=folder, env=environment(folder, **variables),
                            stdin=subprocess.DEVNULL, stdout=subprocess.PIPE, text=True, preexec_fn=restore_interrupts)


@contextlib.contextmanager
def started_runner(folder, code):
    """Starts a Python program in a folder, and has it with the process ids that it prints once it is ready.

    All of them are killed afterwards.
    """
    pids = []
    with start_python(folder, "-c", code) as process:
        try:
            pids += map(int, process.stdout.readline().split())
            yield process, pids
        finally:
            kill_all([process.pid, *pids])


def executable(path, text):
    """Writes a program, and returns its path as a text."""
    path.parent.mkdir(exist_ok=True)
    path.write_text(text, encoding="utf-8")
    path.chmod(0o755)
    return str(path)


def stand_in(folder, text):
    """Writes a program that stands in for rackd, and goes on with these commands of the shell. Returns its path."""
    return executable(folder / "stand-in", f"{STAND_IN}{text}\n")


def runs(pid):
    """Returns whether a process runs. One that has ended and that nobody has waited for doesn't."""
    try:
        state = Path(f"/proc/{pid}/stat").read_text(encoding="ascii", errors="replace").rpartition(")")[2].split()[0]
    except (FileNotFoundError, ProcessLookupError):
        return False
    return state not in "ZX"


def wait_until_ended(*pids):
    """Waits until none of these processes runs."""
    wait_for(lambda: not any(map(runs, pids)))


def kill_all(pids):
    """Kills those of these processes that run."""
    for pid in filter(runs, pids):
        os.kill(pid, 9)


def names_in(folder, pattern="rackd-*"):
    """Returns the names in a folder that have this pattern, sorted."""
    return sorted(path.name for path in folder.glob(pattern))
