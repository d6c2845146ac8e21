"""A suite that is ended by a signal ends its masters, its racks and its cables, and leaves no files."""
import queue
import signal
import threading

import pytest

from rackd.suite_patience import Patience
from rackd.suite_run import Options, Run, end_all, read_folder, run_beside

from support.clients import wait_for
from support.package_runs import kill_all, names_in, runs, start_python, wait_until_ended
from support.processes import PATIENCE
from support.suite_runs import HEAD, LONG

# Writes the process ids of the master, the rack and the cable, and goes on.
SCENARIO = HEAD + """
import os, time
def run(bus):
    bus.start()
    with open(__name__ + ".new", "w") as file:
        print(bus._program._process.pid, bus._rack.pid, bus.cable.pid, file=file)
    os.rename(__name__ + ".new", __name__ + ".pids")
    STEP
"""
# Waits as steps do, for something else that ends with the rack, and for something that stays.
STEPS = {"waits": "bus.exchanges(5, 10 ** 9)", "asks": "bus.master().timeout = 600; bus.master().srd(9, b'')",
         "sleeps": "time.sleep(600)"}


@pytest.mark.parametrize("number", [signal.SIGTERM, signal.SIGINT], ids=["SIGTERM", "SIGINT"])
@pytest.mark.parametrize("step", STEPS)
def test_suite_that_is_ended(suite, number, step):
    """Two of three scenarios run then. They end with their masters, racks and cables, and the third one does not begin."""
    for name in ("one", "two", "three"):
        suite.scenario(name, SCENARIO.replace("STEP", STEPS[step]))
    words = ["-m", "rackd", "suite", "--timeout", "600", "--connect", "600", "--jobs", "2", "--folder", "scenarios",
             *suite.master("import time; time.sleep(600)")]
    notes = [suite.folder / f"scenario_{name}.pids" for name in ("one", "three")]
    pids = []
    with start_python(suite.folder, *words) as process:
        try:
            wait_for(lambda: all(note.exists() for note in notes) or process.poll() is not None)
            pids += [int(pid) for note in notes for pid in note.read_text(encoding="ascii").split()]
            assert [runs(pid) for pid in pids] == [True] * 6
            process.send_signal(number)
            assert process.wait(LONG) == 128 + number
            wait_until_ended(*pids)
            assert names_in(suite.folder, "*.pids") == sorted(note.name for note in notes)
            wait_for(lambda: names_in(suite.folder) == [])
        finally:
            kill_all([process.pid, *pids])


def test_no_scenario_begins_in_the_place_of_one_that_is_ended(suite, monkeypatch):
    """A scenario may end, and its place be taken, before any other one is stopped."""
    begun, one_by_one, stop = [], threading.Lock(), Patience.stop

    class WaitingRun(Run):
        """A run without a rack, which waits until it is stopped."""

        def _failure(self):
            begun.append(self)
            self._patience.rest(PATIENCE)

    def stop_slowly(patience):
        with one_by_one:
            stop(patience)
            if patience is one._patience:
                wait_for(lambda: two.is_done() or two in begun)

    monkeypatch.setattr(Patience, "stop", stop_slowly)
    for name in ("one", "two"):
        suite.scenario(name, HEAD + "def run(bus):\n    pass\n")
    options = Options([], PATIENCE, PATIENCE, suite.folder, 1)
    one, two = (WaitingRun(scenario, options, queue.Queue()) for scenario in read_folder(suite.folder / "scenarios", []))
    run_beside([one, two], 1)
    wait_for(lambda: begun)
    end_all([one, two])
    assert begun == [one]
