"""Rows of the log about what clients send that is nothing: octets that are no frame, and rows that are no command."""
import re

import pytest

from support.clients import connect, connect_socket, exchange, open_master, receive, wait_for
from support.racks import rack
from support.sleeping import left_at_receiver

# An FDL status of master 1 to slave 5, and the reply.
STATUS, REPLY = bytes.fromhex("100501494f16"), bytes.fromhex("100105000616")
# The octets of noise, each read alone, and how many rows about octets that it drops a session has in one second.
NOISE, ROWS = 300, 10
# What is dropped, and what the log says of it.
DROPPED = {
    "3368050468": "dropped 5 octets: NoStart, BadHead (33 68 05 04 68)",
    "100501494e16": "dropped 6 octets: BadEnd (10 05 01 49 4e 16), the check sequence is 4e, not 4f",
    "100501494f17": "dropped 6 octets: BadEnd (10 05 01 49 4f 17), the end delimiter is 17, not 16",
    "6805056885816d3c3eed17": "dropped 11 octets: BadEnd (68 05 05 68 85 81 6d 3c 3e ed 17), the end delimiter is 17, not 16",
    "a20501490102030405060708ff00":
        "dropped 14 octets: BadEnd (a2 05 01 49 01 02 03 04 05 06 07 08 ff 00), the check sequence is ff, not 73",
    "6803036885816d7316": "dropped 9 octets: NoStart, BadHead (68 03 03 68 85 81 6d 73 16), "
                          "LE 3 is below 4: a telegram without data is an SD1",
    "33" * 20: "dropped 20 octets: NoStart (33 33 33 33 33 33 33 33 33 33 33 33 33 33 33 33 ..)",
    "33100501494e16": "dropped 7 octets: NoStart, BadEnd (33 10 05 01 49 4e 16), the check sequence is 4e, not 4f",
}


def end_of(server):
    """Ends a server by its input, and returns its log."""
    server.end_input()
    return server.wait().errors


def test_dropped_octets_are_reported(serve):
    """What a session drops with no frame between is one row, with the first octets and the reason."""
    server = serve(rack(), "--log", "--until-input-ends", piped=True)
    master = open_master(server.ports[1].listen, 1)
    for noise in DROPPED:
        assert exchange(master, bytes.fromhex(noise) + STATUS) == REPLY
    # The first octet of a frame that never comes is not dropped.
    master.send(bytes.fromhex("3368"))
    master.close()
    wait_for(lambda: "line 1: master 1 ended: " in server.errors())
    rows = re.findall("line 1 master 1: (dropped .*)", end_of(server))
    assert rows == [*DROPPED.values(), "dropped 1 octet: NoStart (33)"]


def noise_alone(port):
    """Sends octets that are no frame as a master, each once the one before was read."""
    master = connect_socket(port)
    master.sendall(b"\x01")
    assert master.recv(1) == b"\xe5"
    for _ in range(NOISE):
        master.sendall(b"\x33")
        wait_for(lambda: left_at_receiver(master) == 0, every=0.0005)
    master.close()


def noise_before_requests(port):
    """Sends octets that are no frame as a master, each with a request behind it."""
    master = open_master(port, 1)
    for _ in range(NOISE):
        assert exchange(master, b"\x33" + STATUS) == REPLY
    master.close()


@pytest.mark.parametrize("send", [noise_alone, noise_before_requests])
def test_dropped_octets_are_summed_up(serve, send):
    """A session has at most ten rows of dropped octets in a second, and one at its end; no octet is left out."""
    server = serve(rack(), "--log", "--until-input-ends", piped=True)
    send(server.ports[1].listen)
    wait_for(lambda: "line 1: master 1 ended: " in server.errors())
    rows = [row for row in end_of(server).splitlines() if "dropped" in row]
    form = r"(\d\d:\d\d:\d\d)\.\d\d\d .*dropped (\d+) octets?(?: in (\d+) runs)?: NoStart \((?:33 ?)+(?:\.\.)?\)$"
    found = [re.search(form, row) for row in rows]
    assert all(found)
    assert sum(int(row[2]) for row in found) == NOISE
    assert sum(int(row[3] or 1) for row in found) == NOISE
    assert len(rows) >= ROWS
    seconds = [row[1] for row in found[:-1]]
    assert max(map(seconds.count, seconds)) <= ROWS


def test_rows_that_are_no_command_are_reported(serve):
    """The log has the reason why a row of an operator is no command, and the form of the command."""
    server = serve(rack(), "--log", "--until-input-ends", piped=True)
    operator = connect(server.ports[1].operator)
    rows = (b"nonsense 5", b"tick x", b"show\x1b 5", b"m 1 e5", b"\xff", b"x" * 1025, b"tick 1")
    answers = b"fault NotACommand\n" * 5 + b"fault TooLong\nreleased\n"
    operator.send(b"".join(row + b"\n" for row in rows))
    assert receive(operator, len(answers)) == answers
    operator.close()
    assert re.findall("line 1: operator: (.*)", end_of(server)) == [
        "no command, \"nonsense 5\": no such command; 'rackd run --help' lists them",
        "no command, \"tick x\": tick N: N is a number of 10 ms, 0 to 4294967295",
        "no command, \"show\\x1b 5\": no such command; 'rackd run --help' lists them",
        "no command, \"m 1 e5\": no such command; 'rackd run --help' lists them",
        "a row is not UTF-8",
        "a row has more than 1024 octets",
    ]
