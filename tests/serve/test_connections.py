"""Connections of masters: that leave with a reply unread, that wait for a worker, and that wait for descriptors."""
import os
import resource
import select
from pathlib import Path

import pytest

from support.clients import connect, connect_socket, wait_for
from support.processes import PATIENCE
from support.racks import line, rack
from support.telegrams import ACCEPTED, fresh_diagnosis, slave_diag


@pytest.mark.parametrize("has_audit", [False, True], ids=["journal", "audit"])
def test_master_leaves_with_a_reply_unread(serve, tmp_path, has_audit):
    """A client that leaves with a reply unread has ended its input."""
    server = serve(rack(), "--log", *(["--audit", tmp_path / "audit"] if has_audit else []))
    master = connect_socket(server.ports[1].listen)
    master.sendall(b"\x01")
    assert master.recv(1) == ACCEPTED
    master.sendall(slave_diag(1, 5))
    assert select.select([master], [], [], PATIENCE)[0]
    master.close()
    wait_for(lambda: "line 1: master 1 ended: " in server.errors())
    assert "line 1: master 1 ended: EndOfInput, 1 requests, 0 refused\n" in server.errors()


def sockets_of(pid):
    """Returns how many sockets a process has open."""
    count = 0
    for path in Path(f"/proc/{pid}/fd").iterdir():
        try:
            count += os.readlink(path).startswith("socket:")
        except FileNotFoundError:
            count += 1
    return count


def test_busy_workers_are_reported_once(serve):
    """That all workers are busy is reported without `--log`, once until one is free."""
    server = serve(rack(line(1, 5), workers=1), "--until-input-ends", piped=True)
    report, sockets = "line 1: a connection waits, all 1 workers are busy", sockets_of(server.pid)
    first = server.master(1)
    waiting = [connect(server.ports[1].listen) for _ in range(3)]
    wait_for(lambda: report in server.errors())
    for connection in [first, *waiting]:
        connection.close()
    # Once all sockets are closed the worker is free.
    wait_for(lambda: sockets_of(server.pid) == sockets)
    assert server.errors().count(report) == 1
    second = server.master(2)
    late = connect(server.ports[1].listen)
    wait_for(lambda: server.errors().count(report) == 2)
    second.close()
    late.close()
    server.end_input()
    assert server.wait().errors.count(report) == 2


MASTERS = range(10, 26)


@pytest.fixture(name="least_descriptors")
def fixture_least_descriptors(start_server):
    """The lowest limit of descriptors with which a rack of one line is ready."""
    def is_ready(most):
        server = start_server(rack(line(1, 5, masters=list(MASTERS))), limits=[(resource.RLIMIT_NOFILE, most)])
        row = server.row()
        server.kill()
        return row == b"ready\n"

    too_few, enough = 8, 200
    assert is_ready(enough)
    while enough - too_few > 1:
        middle = (too_few + enough) // 2
        too_few, enough = (too_few, middle) if is_ready(middle) else (middle, enough)
    return enough


def is_reset(connection):
    """Returns whether a connection is reset, and neither accepted nor refused because another one has its address; it is closed
    then."""
    with connection:
        try:
            connection.recv(1)
            return False
        except ConnectionError:
            return True


@pytest.mark.parametrize("more", [0, 1])
def test_storm_waits_for_descriptors(serve, least_descriptors, more):
    """With hardly more descriptors than a rack checks for, a storm of connections waits, and none is reset.

    One descriptor may be left, though a connection needs two: so an even and an odd number are tried.
    """
    server = serve(rack(line(1, 5, masters=list(MASTERS))), limits=[(resource.RLIMIT_NOFILE, least_descriptors + more)])
    storm = [connect_socket(server.ports[1].listen) for _ in range(120)]
    for number, connection in enumerate(storm):
        connection.sendall(bytes([MASTERS[number % len(MASTERS)]]))
    assert sum(map(is_reset, storm)) == 0
    assert server.master(10).raw(slave_diag(10, 5, 0x4D)) == fresh_diagnosis(10, 5)
