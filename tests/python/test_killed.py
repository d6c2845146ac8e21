"""Racks that are killed in a test, and racks of a process that is killed or has a child."""
import os
import signal

import pytest

import rackd
from rackd import Rack, RackFault
from rackd import rack as rack_module

from support.package_runs import CFG, IDENT, WITH_AND_WITHOUT_A_CHILD, runs, started_runner, wait_until_ended
from support.processes import PATIENCE

# A runner with three racks, which prints their process ids and waits for its end.
RUNNER = """
import os, rackd, time
racks = [rackd.Rack(rackd.SAMPLE) for _ in range(3)]
master = racks[0].line(1).master(1)
master.timeout = 60
master.set_prm(5, 0x80A1)
{more}
print(*[rack.pid for rack in racks], *children, flush=True)
time.sleep(600)
"""


def test_rack_that_is_killed_in_a_test(monkeypatch, master_of):
    rack = Rack(rackd.SAMPLE)
    line = rack.line(1)
    master, operator, port = master_of(line), line.operator(), line.port(2)
    master.bring_up(5, IDENT, CFG)
    assert rack.fault() is None
    monkeypatch.setattr(rack_module, "NOTICE_TIME", PATIENCE)
    os.kill(rack.pid, signal.SIGKILL)
    for call in (lambda: master.data_exchange(5, b"\0\0"), lambda: operator.show(5), lambda: port.read(1), port.inWaiting,
                 lambda: line.master(2), rack.close):
        with pytest.raises(RackFault, match=r"ended by signal 9 \(SIGKILL\) before it was closed") as raised:
            call()
        assert raised.value.status == -signal.SIGKILL
    assert not rack.folder.exists()
    rack.close()


def test_its_fault_is_reported_once(monkeypatch):
    monkeypatch.setattr(rack_module, "NOTICE_TIME", PATIENCE)
    with pytest.raises(RackFault) as raised:
        with Rack(rackd.SAMPLE) as rack:
            os.kill(rack.pid, signal.SIGKILL)
            rack.line(1).operator().tick()
    assert not isinstance(raised.value.__context__, RackFault)


def test_a_test_that_does_not_notice():
    with pytest.raises(RackFault, match="SIGKILL"):
        with Rack(rackd.SAMPLE) as rack:
            os.kill(rack.pid, signal.SIGKILL)
            wait_until_ended(rack.pid)


@pytest.mark.parametrize("more", WITH_AND_WITHOUT_A_CHILD.values(), ids=WITH_AND_WITHOUT_A_CHILD)
def test_runner_that_is_killed_leaves_no_rack(tmp_path, more):
    with started_runner(tmp_path, RUNNER.format(more=more)) as (runner, pids):
        assert len(pids) >= 3 and all(map(runs, pids))
        runner.kill()
        wait_until_ended(*pids[:3])
        assert all(map(runs, pids[3:]))


def test_child_of_a_runner_leaves_its_racks_alone(rack):
    child = os.fork()
    if child == 0:
        rack.close()
        os._exit(0 if rack.folder.exists() else 1)
    assert os.waitpid(child, 0)[1] == 0
    assert rack.line(1).operator().owned(1) == []
