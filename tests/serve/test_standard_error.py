"""A standard error of `rackd serve` that nobody reads: all are answered, and the rows that are lost are counted."""
import contextlib
import os
import re

from support.clients import answer_to
from support.racks import rack
from support.sleeping import left_in_pipe, wait_until_asleep
from support.telegrams import fresh_diagnosis, slave_diag

# The requests that are reported while nobody reads: a pipe takes 64 KiB, and 1,024 rows wait.
REQUESTS = 4000


@contextlib.contextmanager
def unread_errors(serve):
    """A server whose standard error is a pipe that nobody reads, and the end of the pipe."""
    end, errors = os.pipe()
    server = serve(rack(), "--sessions", 1, "--log", "requests", before=lambda: os.dup2(errors, 2))
    os.close(errors)
    with open(end, "rb", buffering=0) as pipe:
        yield server, pipe


def ask_often(server):
    """Has a master make its requests, and returns it and an operator."""
    master, operator = server.master(1), server.operator()
    request, reply = slave_diag(1, 5, 0x4D), fresh_diagnosis(1, 5)
    assert all(master.raw(request) == reply for _ in range(REQUESTS))
    return master, operator


def test_all_are_answered(serve):
    """All are answered while nobody reads standard error, and the program ends."""
    with unread_errors(serve) as (server, _):
        master, operator = ask_often(server)
        assert answer_to(operator, "tick 1") == "released"
        master.close()
        operator.close()
        done = server.wait()
    assert done.status == 0
    assert done.output.count("\n") == 1 + REQUESTS + 1


def test_lost_rows_are_counted(serve):
    """The rows that are written and those that are lost make all."""
    with unread_errors(serve) as (server, pipe):
        master, operator = ask_often(server)
        written = b""
        while left_in_pipe(pipe):
            written += pipe.read(65536)
            wait_until_asleep(server.pid)
        master.close()
        operator.close()
        server.wait()
        while more := pipe.read(65536):
            written += more
    rows = written.decode().splitlines()
    lost = [int(found[1]) for found in (re.search(r"(\d+) rows lost$", row) for row in rows) if found]
    assert lost
    # Both are connected and end, the requests, and how many were served.
    assert len(rows) - len(lost) + sum(lost) == 2 + 2 + REQUESTS + 1
