"""Nothing stays in the folder for temporary files: not after a rack is closed, and not after the process of a rack is killed.

That is so for tests and for `python -m rackd suite`.
"""
import contextlib
import os
import signal
import sys
import tempfile
from pathlib import Path

import pytest

import rackd
from rackd import Rack

from support.clients import wait_for
from support.package_runs import (WITH_AND_WITHOUT_A_CHILD, executable, kill_all, names_in, run_python, runs, start_python,
                                  started_runner)
from support.processes import PATIENCE
from support.sleeping import wait_until_asleep
from support.suite_runs import GOES_ON, HEAD, MASTER

# A runner with three racks and a cable that has read a journal. It prints the process ids of the racks.
RUNNER = """
import os, rackd, time
racks = [rackd.Rack(rackd.SAMPLE) for _ in range(3)]
racks[0].line(1).cable(rackd.Cable())
racks[1].line(1).journal().judge()
{more}
print(*[rack.pid for rack in racks], *children, flush=True)
{then}
"""
# The steps of a scenario, which writes the process ids of the rack, of the cable and of its own to a file, and goes on.
STEPS = """
import os, time
def run(bus):
    bus.start()
    bus.exchanges(5)
    {more}
    with open({note!r} + ".new", "w") as file:
        print(bus._rack.pid, bus.cable.pid, *children, file=file)
    os.rename({note!r} + ".new", {note!r})
    bus.exchanges(5, 10 ** 9)
"""
# A stand-in for rackd: `serve` writes a file beside its rack file at its end, once a row has come from a FIFO.
ENDS_LATE = """\
#!/bin/bash
[ "$1" = serve ] || exec "{right}" "$@"
folder=$(dirname "$2")
"{right}" "$@"
status=$?
read -r _ <"{fifo}"
echo >"$folder/late" && touch "{written}"
exit $status
"""
# A stand-in for rackd: a command that reads a journal goes on until somebody ends it.
READS_FOR_EVER = """\
#!/bin/bash
[ "$1" = explain ] || exec "{right}" "$@"
echo $$ >"{note}.new"
mv "{note}.new" "{note}"
exec sleep 600
"""


@pytest.fixture
def temporary(tmp_path):
    """The folder for temporary files of the programs that a test starts, and of nobody else."""
    folder = tmp_path / "temporary"
    folder.mkdir()
    return folder


def guards_of(folder):
    """Returns the processes whose last word is the path of a folder: those that wait until they may remove it."""
    found = []
    for path in Path("/proc").glob("[0-9]*/cmdline"):
        try:
            words = path.read_bytes().split(b"\0")
        except (FileNotFoundError, ProcessLookupError):
            continue
        if os.fsencode(folder) in words[-2:]:
            found.append(int(path.parent.name))
    return found


@pytest.mark.parametrize("more", WITH_AND_WITHOUT_A_CHILD.values(), ids=WITH_AND_WITHOUT_A_CHILD)
def test_runner_that_is_killed(temporary, more):
    with started_runner(temporary, RUNNER.format(more=more, then="time.sleep(600)")) as (runner, pids):
        assert len(names_in(temporary, "*")) == 3
        runner.kill()
        wait_for(lambda: not names_in(temporary, "*"))
        assert not any(map(runs, pids[:3])) and all(map(runs, pids[3:]))


def test_runner_that_closes_no_rack(temporary):
    done = run_python(temporary, "-c", RUNNER.format(more="children = []", then=""))
    assert done.status == 0, done
    wait_for(lambda: not names_in(temporary, "*"))


@pytest.fixture
def late(tmp_path, program):
    """A program that stands in for rackd and ends late, see `ENDS_LATE`."""
    return Late(tmp_path, program)


class Late:
    """The path of the program, and what it waits for and writes."""

    def __init__(self, folder, program):
        self.fifo, self.written = folder / "fifo", folder / "written"
        os.mkfifo(self.fifo)
        self.path = executable(folder / "ends-late", ENDS_LATE.format(right=program, fifo=self.fifo, written=self.written))

    def check_folder(self, temporary, process):
        """Kills a process, whose one folder stays there until this program has written a file in it, and goes then."""
        name, = names_in(temporary, "*")
        guard, = guards_of(temporary / name)
        process.kill()
        process.wait(PATIENCE)
        wait_until_asleep(guard)
        assert not self.written.exists()
        self.fifo.write_text("\n", encoding="ascii")
        wait_for(self.written.exists)
        wait_for(lambda: not names_in(temporary, "*"))


def test_files_stay_as_long_as_the_rack_lives(temporary, late):
    """The rack writes a file long after its process was killed: its folder is there until then, and goes afterwards."""
    code = (f"import rackd, time\nrack = rackd.Rack(rackd.SAMPLE, program={late.path!r})\nprint(rack.pid, flush=True)\n"
            "time.sleep(600)\n")
    with started_runner(temporary, code) as (runner, pids):
        late.check_folder(temporary, runner)
        assert not runs(pids[0])


@contextlib.contextmanager
def started_suite(folder, temporary, more="children = []", **variables):
    """Starts a suite of one scenario, and has it with the process ids that the scenario writes. All are killed afterwards."""
    note, scenarios, master = folder / "pids", folder / "scenarios", folder / "master.py"
    scenarios.mkdir()
    more = more.strip().replace("\n", "\n    ")
    (scenarios / "one.py").write_text(HEAD + STEPS.format(more=more, note=str(note)), encoding="utf-8")
    # its end is that of its connection
    master.write_text(MASTER + GOES_ON, encoding="utf-8")
    words = ["-m", "rackd", "suite", "--timeout", "600", "--connect", "600", "--folder", scenarios, sys.executable, master]
    pids = []
    with start_python(temporary, *words, **variables) as process:
        try:
            wait_for(lambda: note.exists() or process.poll() is not None)
            pids += map(int, note.read_text(encoding="ascii").split())
            yield process, pids
        finally:
            kill_all([process.pid, *pids])


@pytest.mark.parametrize("more", WITH_AND_WITHOUT_A_CHILD.values(), ids=WITH_AND_WITHOUT_A_CHILD)
def test_suite_that_is_killed(tmp_path, temporary, more):
    with started_suite(tmp_path, temporary, more) as (suite, pids):
        assert [name[:12] for name in names_in(temporary, "*")] == ["rackd-suite-"]
        suite.kill()
        wait_for(lambda: not names_in(temporary, "*"))
        assert not any(map(runs, pids[:2])) and all(map(runs, pids[2:]))


def test_files_of_a_suite_stay_as_long_as_its_rack_lives(tmp_path, temporary, late):
    with started_suite(tmp_path, temporary, RACKD=late.path) as (suite, _):
        late.check_folder(temporary, suite)


def test_runner_that_is_killed_while_it_reads_a_journal(temporary, tmp_path, program):
    """Nothing of the journal stays, though the program that reads it goes on."""
    note = tmp_path / "reader"
    reads = executable(tmp_path / "reads", READS_FOR_EVER.format(right=program, note=note))
    code = (f"import rackd\nrack = rackd.Rack(rackd.SAMPLE, program={reads!r})\nprint(rack.pid, flush=True)\n"
            "rack.line(1).journal()\n")
    with started_runner(temporary, code) as (runner, _):
        wait_for(note.exists)
        reader = int(note.read_text(encoding="ascii"))
        try:
            runner.kill()
            wait_for(lambda: not names_in(temporary, "*"))
            assert runs(reader)
        finally:
            kill_all([reader])


def test_journals_are_read_without_a_folder(line, monkeypatch):
    line.operator().tick()
    monkeypatch.setattr(tempfile, "tempdir", "/nowhere")
    journal = line.journal()
    assert journal.explain().endswith("legal 1\n")
    assert journal.judge(allow_untested=True) == []


def test_journal_that_is_not_legal_stays(temporary):
    """The files are there after the end of the process too, for who looks at them."""
    done = run_python(temporary, "-c", (
        "import rackd\nrack = rackd.Rack(rackd.SAMPLE)\nprint(rack.audit, flush=True)\nrack.line(1).operator().tick()\n"
        "file, = rack.line(1).files()\nfile.write_text(file.read_text().replace('released', 'done'))\nrack.close()\n"))
    assert done.status == 1
    audit = Path(done.output.strip())
    assert f"see {audit}" in done.errors
    wait_for(lambda: not guards_of(audit.parent))
    assert (audit / "line-1-1.audit").read_text(encoding="ascii").endswith("| done\n")


def test_failed_start_leaves_nothing(temporary, monkeypatch):
    monkeypatch.setattr(tempfile, "tempdir", str(temporary))
    with pytest.raises(rackd.RackFault):
        Rack("nothing = 1\n")
    assert names_in(temporary, "*") == []


def test_close_does_not_wait_for_what_the_program_has_started(temporary, tmp_path, program, monkeypatch):
    """A process that the program has left behind has all descriptors that the program has got."""
    note = tmp_path / "left"
    leaves = executable(tmp_path / "leaves", '#!/bin/bash\nif [ "$1" = serve ]; then\n  sleep 100 <&- >/dev/null 2>&1 &\n'
                        f'  echo $! >"{note}"\nfi\nexec "{program}" "$@"\n')
    monkeypatch.setattr(tempfile, "tempdir", str(temporary))
    rack = Rack(rackd.SAMPLE, program=leaves)
    left = int(note.read_text(encoding="ascii"))
    try:
        rack.close()
        assert runs(left)
        assert names_in(temporary, "*") == []
    finally:
        os.kill(left, signal.SIGKILL)
