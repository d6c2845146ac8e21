"""Fixtures of the tests of `rackd operate`."""
import pytest

from support.clients import exchange, open_master
from support.operating import Operate, OperateAtTerminal
from support.played_ports import PlayedPort
from support.racks import usual_rack
from support.telegrams import ACCEPTED, FIRST, set_prm


@pytest.fixture
def operate(program):
    """A function that starts `rackd operate` at a port: `kind` is one of the classes of support.operating."""
    clients = []

    def start(port, *words, kind=Operate, **streams):
        clients.append(kind(program, port, *words, **streams))
        return clients[-1]

    yield start
    for client in clients:
        client.kill()


@pytest.fixture(params=[Operate, OperateAtTerminal], ids=["pipe", "terminal"])
def kind(request):
    """Where the client reads its input: from a pipe, or at a terminal."""
    return request.param


@pytest.fixture
def port():
    """A port of operators that the test plays."""
    with PlayedPort() as played:
        yield played


@pytest.fixture
def locked(serve):
    """The operator port of a line whose slave 5 master 1 has locked, with a watchdog of 10 units."""
    server = serve(usual_rack())
    master = open_master(server.ports[1].listen, 1)
    # The group is 1.
    assert exchange(master, set_prm(1, 5, FIRST, watchdog_ms=100, group=1)) == ACCEPTED
    yield server.ports[1].operator
    master.close()
