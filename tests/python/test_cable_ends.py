"""How cables end: with their rack, before it, killed, and with a process that is killed."""
import os
import signal

import pytest

import rackd
from rackd import Cable, Rack, RackFault, SessionEnded
from rackd import cable as cable_module
from rackd import rack as rack_module

from support.package_runs import WITH_AND_WITHOUT_A_CHILD, kill_all, run_python, runs, started_runner, wait_until_ended
from support.processes import PATIENCE

# A runner with three cables, which prints their process ids and waits for its end.
RUNNER = """
import os, rackd, time
rack = rackd.Rack(rackd.SAMPLE)
cables = [rack.line(1).cable(rackd.Cable()) for _ in range(3)]
{more}
print(*[cable.pid for cable in cables], *children, flush=True)
time.sleep(600)
"""
# The system does not run the cable for a second, and then the runner is killed.
KILLED_AT_THE_START = """
import fcntl, os, rackd, time
def killed(end, command, pid):
    print(pid, flush=True)
    time.sleep(1)
    os.kill(os.getpid(), 9)
rack = rackd.Rack(rackd.SAMPLE)
fcntl.fcntl = killed
rack.line(1).cable(rackd.Cable())
"""


def test_with_the_rack(master_of):
    with Rack(rackd.SAMPLE) as rack:
        master = master_of(rack.line(1), cable=Cable())
        cables = [master.cable, rack.line(1).cable(Cable())]
        master.cable.lose(5)
        assert [runs(cable.pid) for cable in cables] == [True, True]
    assert [runs(cable.pid) for cable in cables] == [False, False]
    for call in (lambda: master.slave_diag(5), lambda: master.cable.off(5), master.cable.wait_done):
        with pytest.raises(SessionEnded):
            call()


def test_before_the_rack(line, master_of):
    master = master_of(line, cable=Cable())
    master.cable.close()
    with pytest.raises(SessionEnded):
        master.slave_diag(5)
    assert master.cable.log() == []


def test_cable_that_is_killed_in_a_test(monkeypatch, master_of):
    rack = Rack(rackd.SAMPLE)
    master = master_of(rack.line(1), cable=Cable())
    assert master.cable.fault() is None
    monkeypatch.setattr(cable_module, "NOTICE_TIME", PATIENCE)
    os.kill(master.cable.pid, signal.SIGKILL)
    for call in (lambda: master.slave_diag(5), lambda: master.cable.off(5), master.cable.log, rack.close):
        with pytest.raises(RackFault, match=r"the cable was ended by signal 9 \(SIGKILL\)") as raised:
            call()
        assert raised.value.status == -signal.SIGKILL
    assert (rack.status, rack.folder.exists()) == (0, False)


def test_rack_that_is_killed_behind_a_cable(monkeypatch, master_of):
    rack = Rack(rackd.SAMPLE)
    master = master_of(rack.line(1), cable=Cable())
    monkeypatch.setattr(rack_module, "NOTICE_TIME", PATIENCE)
    monkeypatch.setattr("rackd.connection.HELD_TIME", 0.2)
    os.kill(rack.pid, signal.SIGKILL)
    for call in (lambda: master.slave_diag(5), lambda: rack.line(1).master(2, cable=Cable()), rack.close):
        with pytest.raises(RackFault, match=r"the rack was ended by signal 9 \(SIGKILL\)"):
            call()


@pytest.mark.parametrize("more", WITH_AND_WITHOUT_A_CHILD.values(), ids=WITH_AND_WITHOUT_A_CHILD)
def test_runner_that_is_killed(tmp_path, more):
    with started_runner(tmp_path, RUNNER.format(more=more)) as (runner, pids):
        assert len(pids) >= 3 and all(map(runs, pids))
        runner.kill()
        wait_until_ended(*pids[:3])
        assert all(map(runs, pids[3:]))


def test_runner_that_is_killed_while_a_cable_starts(tmp_path):
    done = run_python(tmp_path, "-c", KILLED_AT_THE_START)
    assert done.status == -signal.SIGKILL
    pid = int(done.output)
    try:
        wait_until_ended(pid)
    finally:
        kill_all([pid])


def test_child_of_a_runner_leaves_its_cables_alone(line, master_of):
    master = master_of(line, cable=Cable())
    child = os.fork()
    if child == 0:
        master.cable.close()
        os._exit(0)
    assert os.waitpid(child, 0)[1] == 0
    assert master.fdl_status(5)
