"""Clients that are slow or silent, connections at the same time, and few descriptors and threads."""
import contextlib
import re
import select
import socket
import time

import pytest

from support import refused_threads
from support.clients import connect_socket
from support.premises import measured, suppose, tried_again
from support.processes import PATIENCE
from support.racks import usual_rack
from support.telegrams import fresh_diagnosis, slave_diag
from support.watching import DAY_RACK, Watched, ask, port_of

# Seconds that a request may take, and the seconds more after which a client must have been closed.
REQUEST, BEYOND = 10, 4
# Seconds for which a try may be held up, and by which a clock of the system may be early.
HELD_UP, EARLY = 1, 0.1
# The connections that the page serves at once, and the clients that say nothing.
AT_ONCE, SILENT = 16, 40
# The numbers of descriptors and of threads that a program is given.
DESCRIPTORS, THREADS = range(8, 84, 2), range(0, 80, 2)


def is_closed(client):
    """Returns whether the other end of a connection has closed it."""
    if not select.select([client], [], [], 0)[0]:
        return False
    try:
        return client.recv(1) == b""
    except ConnectionError:
        return True


@tried_again
def test_slow_client(watch, audit):
    """A request that does not come whole within ten seconds ends its connection, also if an octet comes each half second."""
    watched = watch(DAY_RACK, audit.path)
    request = iter(b"GET / HTTP/1.1\r\nHost: 127.0.0.1\r\nX-Slow: " + b"x" * 1000)
    with measured(watched.pid) as time_of, connect_socket(watched.port) as client:
        until = time.monotonic() + PATIENCE
        while not is_closed(client):
            assert time.monotonic() < until, "it is served for too long"
            with contextlib.suppress(ConnectionError):
                client.sendall(bytes([next(request)]))
            select.select([client], [], [], 0.5)
    assert time_of.seconds > REQUEST - EARLY
    suppose(time_of.held_up < HELD_UP, f"it was held up for {time_of.held_up:.1f} s")
    assert time_of.seconds < REQUEST + BEYOND


@pytest.mark.slow
@tried_again
def test_silent_clients(watch, audit):
    """Forty clients that say nothing hold nobody up for longer than it takes to close them: 16 are served at once."""
    watched = watch(DAY_RACK, audit.path)
    with contextlib.ExitStack() as opened, measured(watched.pid) as time_of:
        for _ in range(SILENT):
            opened.enter_context(connect_socket(watched.port))
        assert ask(watched.port, "GET", "/state.json").status == 200
    assert time_of.seconds > SILENT // AT_ONCE * (REQUEST - EARLY)
    suppose(time_of.held_up < HELD_UP, f"it was held up for {time_of.held_up:.1f} s")
    assert time_of.seconds < SILENT // AT_ONCE * REQUEST + BEYOND


# ---- few descriptors and threads


def with_few_descriptors(most):
    """Returns words before those of a program that may open this number of descriptors."""
    return ["bash", "-c", 'ulimit -n "$0" && exec "$@"', most]


def assert_all_are_served(port, server=None):
    """Asserts that as many connections as the page serves at once are answered while all stay open; with a server also a
    master and an operator beside them."""
    request = f"GET /state.json HTTP/1.1\r\nHost: 127.0.0.1:{port}\r\n\r\n".encode()
    with contextlib.ExitStack() as opened:
        clients = [opened.enter_context(connect_socket(port)) for _ in range(AT_ONCE)]
        for client in clients:
            client.sendall(request)
        if server is not None:
            master, operator = opened.enter_context(server.master(1)), opened.enter_context(server.operator())
            assert master.raw(slave_diag(1, 5)) == fresh_diagnosis(1, 5)
            assert operator.ask("in 5 aa55") == "done"
        for client in clients:
            assert client.recv(12, socket.MSG_WAITALL) == b"HTTP/1.1 200"


def page_of(server):
    """Waits until a server with a page is ready or has ended. Returns its first row, and the port of its page if it is ready."""
    first = server.row().decode()
    if not first.endswith("\n"):
        return first, None
    port = port_of(first.removesuffix("\n"))
    try:
        server.wait_until_ready()
    except AssertionError:
        return first, None
    return first, port


def assert_too_few_descriptors(status, errors):
    assert status == 2
    assert re.fullmatch(r"rackd: cannot (make|listen on|read) .+\n  too few file descriptors; 'ulimit -n' shows and raises their number\n", errors)


def test_few_descriptors_to_serve(start_server, tmp_path):
    """With too few descriptors for the rack and the page the program reports that before it is ready; else all are served."""
    served = []
    for most in DESCRIPTORS:
        server = start_server(usual_rack(workers=1), "--audit", tmp_path / "audit", "--page", "0",
                              wrapper=with_few_descriptors(most))
        _, port = page_of(server)
        if port is None:
            done = server.wait()
            assert_too_few_descriptors(done.status, done.errors)
        else:
            served.append(most)
            assert_all_are_served(port, server)
        server.kill()
    assert served and served == [most for most in DESCRIPTORS if most >= served[0]] and served[0] > DESCRIPTORS[0]


def test_few_descriptors_to_watch(program, audit):
    served = []
    for most in DESCRIPTORS:
        watched = Watched(program, DAY_RACK, audit.path, wrapper=with_few_descriptors(most))
        if watched.is_ready():
            served.append(most)
            assert_all_are_served(watched.port)
        else:
            assert_too_few_descriptors(watched.wait(), watched.errors.rest())
        watched.kill()
    assert served and served == [most for most in DESCRIPTORS if most >= served[0]] and served[0] > DESCRIPTORS[0]


TOO_FEW_THREADS, OUT_OF_MEMORY = (2, "rackd: too few threads for the page\n"), (3, "rackd: out of memory\n")


@pytest.fixture
def refuses_threads():
    """Skips a test where threads can't be refused."""
    if not refused_threads.can_be_refused():
        pytest.skip("this machine has no filter of the system (seccomp) to refuse threads")


def test_few_threads_to_serve(start_server, tmp_path, refuses_threads):
    """With too few threads for the page the program reports that before it is ready. A thread of the rack that is refused ends
    the program, as without a page."""
    served = []
    for count in THREADS:
        server = start_server(usual_rack(workers=1), "--audit", tmp_path / "audit", "--page", "0",
                              wrapper=refused_threads.wrapper(count))
        first, port = page_of(server)
        if port is None:
            done = server.wait()
            # the first thread writes the log of the rack; all threads of the page are there once its address is written
            assert (done.status, done.errors) == (OUT_OF_MEMORY if count == 0 or first else TOO_FEW_THREADS)
        else:
            try:
                assert_all_are_served(port)
                served.append(count)
            except (AssertionError, OSError):
                assert server.wait().status == 3
        server.kill()
    # the end of the program may come after the page was asked, so smaller numbers may be served by chance
    assert THREADS[-1] in served and THREADS[0] not in served


def test_few_threads_to_watch(program, audit, refuses_threads):
    served = []
    for count in THREADS:
        watched = Watched(program, DAY_RACK, audit.path, wrapper=refused_threads.wrapper(count))
        if watched.is_ready():
            served.append(count)
            assert_all_are_served(watched.port)
        else:
            assert (watched.wait(), watched.errors.rest()) == TOO_FEW_THREADS
        watched.kill()
    assert served and served == [count for count in THREADS if count >= served[0]] and served[0] > THREADS[0]
