"""The addresses that masters claim: each belongs to one session of a line at a time, and is free once that has ended."""
import subprocess
import sys
import threading

import pytest

from support.clients import answer_to, connect, exchange, has_ended, open_master, receive, wait_for
from support.line_time import at_once
from support.racks import line, rack
from support.telegrams import ACCEPTED, fresh_diagnosis, slave_diag

# Connects to a port, sends octets, writes the first octet of the answer as hex, and then holds the connection.
HOLDER = """
import socket, sys, time
connection = socket.create_connection(("127.0.0.1", int(sys.argv[1])))
connection.sendall(bytes.fromhex(sys.argv[2]))
print(connection.recv(1).hex(), flush=True)
time.sleep(600)
"""


def claim(port, address):
    """Returns a session of a master if it is accepted now, and None if its address is held."""
    connection = connect(port)
    connection.send(bytes([address]))
    if receive(connection, 1) == ACCEPTED:
        return connection
    connection.close()
    return None


# What a connection sends that is refused while master 1 has a session; masters 1 to 3 are those of the line.
REFUSED = {
    "held": bytes([1]),
    "held-with-a-telegram": bytes([1]) + slave_diag(1, 5),
    "no-master-of-the-line": bytes([7]) + slave_diag(7, 5),
    "address-of-a-slave": bytes([5]),
    "every-station": bytes([127]),
    "no-address": bytes([0xE5]),
}


@pytest.mark.parametrize("octets", REFUSED.values(), ids=REFUSED)
def test_addresses_that_are_refused(serve, octets):
    """The connection ends with nothing written, and the session of master 1 goes on."""
    server = serve(rack())
    one = open_master(server.ports[1].listen, 1)
    refused = connect(server.ports[1].listen)
    refused.send(octets)
    assert receive(refused, 1) == b""
    assert exchange(one, slave_diag(1, 5)) == fresh_diagnosis(1, 5)
    assert not has_ended(one, within=0)


def test_same_address_at_two_lines(serve):
    server = serve(rack(line(1, 5), line(2, 5)))
    sessions = [claim(server.ports[number].listen, 1) for number in (1, 2)]
    for session in sessions:
        assert exchange(session, slave_diag(1, 5)) == fresh_diagnosis(1, 5)


def test_one_session_after_another(serve):
    """An address is free again once its session has ended, any number of times."""
    server = serve(rack())
    for _ in range(20):
        session = wait_for(lambda: claim(server.ports[1].listen, 1))
        assert exchange(session, slave_diag(1, 5)) == fresh_diagnosis(1, 5)
        session.close()


def test_claims_at_one_moment(serve):
    """Of eight connections that claim an address at one moment, one is accepted; this is tried for sixteen addresses."""
    masters = range(6, 22)
    server = serve(rack(line(1, 5, masters=list(masters)), workers=16))
    for address in masters:
        sessions = at_once(lambda _: claim(server.ports[1].listen, address), range(8))
        accepted = [session for session in sessions if session is not None]
        assert len(accepted) == 1
        assert exchange(accepted[0], slave_diag(address, 5)) == fresh_diagnosis(address, 5)
        accepted[0].close()


def test_address_that_eight_clients_contend_for(serve):
    """Each of eight clients claims address 1 again and again, until it has had ten sessions. No two have a session at once."""
    server, one, holders = serve(rack()), threading.Lock(), []

    def contend(client):
        most = 0
        for _ in range(10):
            session = wait_for(lambda: claim(server.ports[1].listen, 1))
            with one:
                holders.append(client)
                most = max(most, len(holders))
            assert exchange(session, slave_diag(1, 5)) == fresh_diagnosis(1, 5)
            with one:
                holders.remove(client)
            session.close()
        return most

    assert at_once(contend, range(8)) == [1] * 8
    assert wait_for(lambda: claim(server.ports[1].listen, 1))


def test_client_that_is_killed_within_a_frame(serve):
    """Other sessions go on, its address is free again, and nothing is left of the frame that it has begun."""
    server = serve(rack())
    port = server.ports[1].listen
    two = open_master(port, 2)
    octets = b"\x03" + slave_diag(3, 5)[:6]
    with subprocess.Popen([sys.executable, "-c", HOLDER, str(port), octets.hex()], stdout=subprocess.PIPE) as holder:
        try:
            assert holder.stdout.readline() == b"e5\n"
            assert claim(port, 3) is None
        finally:
            holder.kill()
    assert exchange(two, slave_diag(2, 5)) == fresh_diagnosis(2, 5)
    three = wait_for(lambda: claim(port, 3))
    assert exchange(three, slave_diag(3, 5)) == fresh_diagnosis(3, 5)
    assert exchange(two, slave_diag(2, 5)) == fresh_diagnosis(2, 5)
    assert answer_to(server.operator(), "owned 3") == "owned"
