"""Threads that the system refuses to `rackd serve`, before it is ready and later.

A rack of one line with two workers needs 20 threads: 16 for operators, two that accept connections, and the workers, which
are started in this order. One more, which is started first, writes standard error. Before `ready` the program tries whether
it can start all of the 20 at one time. So the trial has threads 2 to 21, and those that serve are 22 to 41.
"""
import pytest

from support.clients import answer_to, connect, exchange, free_ports, open_master
from support.printed_audits import printed_audits
from support.racks import line, rack
from support.refused_threads import can_be_refused, wrapper
from support.telegrams import fresh_diagnosis, slave_diag

OUT_OF_MEMORY = "rackd: out of memory\n"


@pytest.fixture(scope="module", autouse=True)
def refusals():
    if not can_be_refused():
        pytest.skip("threads can't be refused: a filter of the system (seccomp) is missing")


@pytest.mark.parametrize("threads", [0, 1, 4, 5, 19, 20])
def test_before_ready(start_server, threads):
    server = start_server(rack(workers=2), wrapper=wrapper(threads))
    assert server.wait() == (3, "", OUT_OF_MEMORY)


@pytest.mark.parametrize("ports", ["of-the-rack-file", "of-the-system"])
@pytest.mark.parametrize("threads", [21, 22, 36, 37, 38, 39])
def test_before_the_first_worker(serve, run, tmp_path, threads, ports):
    """No session can be served: the program writes the audit texts and ends. It has been ready before."""
    listen, operator = free_ports(2) if ports == "of-the-rack-file" else (0, 0)
    server = serve(rack(line(1, 5, listen=listen, operator=operator), workers=2), wrapper=wrapper(threads))
    done = server.wait()
    assert (done.status, done.errors) == (3, OUT_OF_MEMORY)
    assert printed_audits(run, server.rack, done.output, tmp_path) == {1: []}


def test_second_worker(serve, run, tmp_path):
    """The other worker and the operators serve their sessions. Then the program writes the audit texts and ends."""
    server = serve(rack(workers=2), "--sessions", "2", wrapper=wrapper(40))
    one, operator = open_master(server.ports[1].listen, 1), server.operator()
    assert exchange(one, slave_diag(1, 5)) == fresh_diagnosis(1, 5)
    assert answer_to(operator, "in 5 aa55") == "done"
    one.close()
    operator.close()
    two, last = open_master(server.ports[1].listen, 2), connect(server.ports[1].operator)
    two.close()
    last.close()
    done = server.wait()
    assert (done.status, done.errors) == (3, OUT_OF_MEMORY)
    assert printed_audits(run, server.rack, done.output, tmp_path) == {1: [
        f"1 req 1 {slave_diag(1, 5).hex()} | WaitPrm none | reply {fresh_diagnosis(1, 5).hex()} Done",
        "2 in 5 aa55 | WaitPrm none | done",
    ]}


@pytest.fixture
def deleting(tmp_path):
    """Words by which two more threads are needed: one deletes old parts of audit texts, and then one writes the times of entries.
    Both are started before those that serve."""
    return ["--audit", tmp_path / "parts", "--endless", "--keep", "2"]


def test_before_ready_with_the_thread_that_deletes(start_server, deleting):
    server = start_server(rack(workers=2), *deleting, wrapper=wrapper(22))
    assert server.wait() == (3, "", OUT_OF_MEMORY)


@pytest.mark.parametrize("threads", [23, 24, 25])
def test_thread_that_deletes(serve, deleting, threads):
    """With 23 it is refused itself, with 24 the one that writes times, and with 25 the first operator's. The audit texts are in
    files, not on standard output."""
    server = serve(rack(workers=2), *deleting, wrapper=wrapper(threads))
    assert server.wait() == (3, "", OUT_OF_MEMORY)


def test_enough_threads(serve):
    """With 41 all are served: two masters and an operator at one time."""
    server = serve(rack(workers=2), "--sessions", "2", wrapper=wrapper(41))
    masters = [open_master(server.ports[1].listen, address) for address in (1, 2)]
    for address, master in enumerate(masters, 1):
        assert exchange(master, slave_diag(address, 5)) == fresh_diagnosis(address, 5)
    operators = [server.operator(), server.operator()]
    assert answer_to(operators[0], "owned 1") == "owned"
    for client in [*masters, *operators]:
        client.close()
    assert server.wait().status == 0
