"""A rack of 8 lines with 16 masters each, whose clients all behave badly at one time.

SOAK_SECONDS is for how long, 6 seconds without it, and SOAK_OCTETS how many octets are sent at the least.
"""
import os
import re
import time

import pytest

from support.bad_clients import BadMaster, BadOperator, Events, has_status
from support.clients import connect_socket, wait_for
from support.processes import PATIENCE
from support.racks import line, rack, slave

pytestmark = pytest.mark.slow

SECONDS, OCTETS = int(os.environ.get("SOAK_SECONDS", "6")), int(os.environ.get("SOAK_OCTETS", "0"))
LINES, MASTERS, SLAVES, WORKERS, OPERATORS, CAPACITY = range(1, 9), range(16), range(20, 28), 32, 16, 65536
# The threads of the program: its first one, the one that writes standard error, the one that reads standard input, the one that
# stops serving at its end, the workers, and for each line one for each of its two ports and for each operator.
THREADS = 4 + WORKERS + (2 + OPERATORS) * len(LINES)
# The memory that may be resident beside what was resident at first and the records of the journals, in KiB, and the most
# octets of one entry of a journal, with what finds it.
SLACK, ENTRY = 6 * 1024, 524


def rack_of_all():
    """Returns a rack of lines with all masters, and some slaves of each kind of device."""
    slaves = [slave(address, device=("still", "counter", "mirror")[address % 3], sync=True, freeze=True) for address in SLAVES]
    return rack(*(line(number, *slaves, masters=list(MASTERS), capacity=CAPACITY) for number in LINES), workers=WORKERS)


def held(pid):
    """Returns the descriptors and threads of a process, and its resident memory in KiB."""
    with open(f"/proc/{pid}/status", encoding="ascii") as status:
        found = dict(row.split(":", 1) for row in status)
    return len(os.listdir(f"/proc/{pid}/fd")), *(int(found[key].split()[0]) for key in ("Threads", "VmRSS"))


def is_served(port, master):
    """Returns whether a master is accepted and gets the status of a slave."""
    connection = connect_socket(port)
    try:
        connection.sendall(bytes([master]))
        return connection.recv(1) == b"\xe5" and has_status(connection, master, SLAVES[0])
    except ConnectionError:
        return False
    finally:
        connection.close()


def clients_of(server, until, events):
    for number in LINES:
        ports = server.ports[number]
        for master in MASTERS:
            yield BadMaster(ports.listen, number, master, SLAVES, until, events)
        yield BadOperator(ports.operator, number, until, events)


def misbehave(server):
    """Has all clients behave badly. Returns what they did."""
    events, begun = Events(), time.monotonic()

    def until():
        # the journals have room for all that comes
        is_over = time.monotonic() - begun > SECONDS and events.counts["octets"] >= OCTETS
        return is_over or events.faults or events.counts["telegrams"] > len(LINES) * CAPACITY // 2

    clients = list(clients_of(server, until, events))
    for client in clients:
        client.start()
    for client in clients:
        client.join(SECONDS + 10 * PATIENCE + OCTETS / 1e6)
    assert not any(client.is_alive() for client in clients)
    assert events.faults == []
    assert events.counts["octets"] >= OCTETS
    return events


def test_clients_that_behave_badly(serve, run, tmp_path):
    server = serve(rack_of_all(), "--until-input-ends", piped=True)
    wait_for(lambda: held(server.pid)[1] == THREADS)
    at_first, _, resident_at_first = held(server.pid)
    misbehave(server)
    wait_for(lambda: held(server.pid)[0] <= at_first)
    descriptors, threads, resident = held(server.pid)
    assert (descriptors, threads) == (at_first, THREADS)
    for number in LINES:
        for master in MASTERS:
            wait_for(lambda: is_served(server.ports[number].listen, master))
    server.end_input()
    done = server.wait(4 * PATIENCE)
    assert done.status == 0
    others = [row for row in done.errors.splitlines() if "a connection waits" not in row]
    assert len(others) == 1, others
    before, *texts = re.split(r"(?m)^(?=rack-audit )", done.output)
    assert (before.strip(), len(texts)) == ("", len(LINES))
    for text in texts:
        (tmp_path / "audit").write_text(text, encoding="ascii")
        assert run("check", server.rack, tmp_path / "audit").output.startswith("legal ")
    entries = sum(text.count("\n") - 1 for text in texts)
    assert resident <= resident_at_first + entries * ENTRY // 1024 + SLACK
