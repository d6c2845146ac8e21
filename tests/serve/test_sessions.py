"""Sessions of masters beside each other: more than workers, many at once, beside a client that doesn't read, and over a stop."""
import re
import select
import signal
import socket
import threading
import time
from collections import Counter

import pytest

from rackd import frames
from rackd.master import GET_CFG, MASTER
from support.clients import answer_to, connect, exchange, open_master, receive, wait_for
from support.line_time import at_once
from support.printed_audits import printed_audits
from support.processes import PATIENCE
from support.racks import line, rack, slave
from support.sleeping import are_asleep, threads, wait_until_asleep
from support.telegrams import ACCEPTED, FIRST, fresh_diagnosis, slave_diag

# How many requests each of many masters sends.
REQUESTS = 100


def test_more_masters_than_workers(serve):
    """With one worker the session of a second master begins when that of the first has ended, also at another line."""
    server = serve(rack(line(2, 5), line(1, 5), workers=1), "--log")
    one, two = open_master(server.ports[1].listen, 1), connect(server.ports[2].listen)
    two.send(b"\x01" + slave_diag(1, 5))
    wait_for(lambda: "line 2: a connection waits, all 1 workers are busy" in server.errors())
    assert exchange(one, slave_diag(1, 5)) == fresh_diagnosis(1, 5)
    assert two.receive_or_end(0) == b""
    one.close()
    assert receive(two, 18) == ACCEPTED + fresh_diagnosis(1, 5)
    wait_for(lambda: "line 2: master 1 connected" in server.errors())
    assert re.findall(r"line ([12]): master 1 (connected|ended)", server.errors()) == [
        ("1", "connected"), ("1", "ended"), ("2", "connected")]


class CrowdMember(threading.Thread):
    """A master that asks for the diagnosis of a slave when all masters are accepted, and counts the right answers."""

    def __init__(self, port, address, asked, everybody):
        super().__init__(daemon=True)
        self.port, self.address, self.asked, self.everybody, self.right = port, address, asked, everybody, 0

    def run(self):
        session = open_master(self.port, self.address)
        self.everybody.wait(PATIENCE)
        for _ in range(REQUESTS):
            self.right += exchange(session, slave_diag(self.address, self.asked)) == fresh_diagnosis(self.address, self.asked)
        session.close()


# The numbers of the lines, and the masters and the slaves of each. All masters ask one slave, or each a slave of its own.
CROWDS = {
    "sixteen-of-a-line": ([1], range(11, 27), [5]),
    "four-of-four-lines": ([4, 3, 1, 2], range(11, 15), [5]),
    "sixteen-with-slaves-of-their-own": ([1], range(16), range(20, 84)),
}


@pytest.mark.parametrize("lines, addresses, slaves", CROWDS.values(), ids=CROWDS)
def test_sixteen_masters_at_once(serve, run, tmp_path, lines, addresses, slaves):
    text = rack(*(line(number, *slaves, masters=list(addresses)) for number in lines), workers=16)
    server = serve(text, "--until-input-ends", piped=True)
    everybody = threading.Barrier(len(lines) * len(addresses))
    members = [CrowdMember(server.ports[number].listen, address, slaves[4 * place % len(slaves)], everybody)
               for number in lines for place, address in enumerate(addresses)]
    for member in members:
        member.start()
    for member in members:
        member.join(PATIENCE)
    assert [member.right for member in members] == [REQUESTS] * 16
    server.end_input()
    journals = printed_audits(run, server.rack, server.wait().output, tmp_path)
    assert list(journals) == sorted(lines)
    for entries in journals.values():
        assert Counter(entry.split(" ")[2] for entry in entries) == {str(address): REQUESTS for address in addresses}


def test_line_that_two_masters_contend_for(serve, run, tmp_path):
    """Two masters send 10,000 requests each, a hundred in one piece, and an operator a tick beside them. Each is answered as if
    the line had no other client, and each is one entry."""
    server, pieces, size = serve(rack(), "--until-input-ends", piped=True), 100, 100

    def ask(address):
        session = open_master(server.ports[1].listen, address)
        answer = fresh_diagnosis(address, 5) * size
        right = 0
        for _ in range(pieces):
            session.send(slave_diag(address, 5) * size)
            right += receive(session, len(answer)) == answer
        session.close()
        return right

    def tick():
        with server.operator() as operator:
            return answer_to(operator, "tick 1")

    answers = at_once(lambda work: work(), [lambda: ask(1), lambda: ask(2), tick])
    assert answers == [pieces, pieces, "released"]
    server.end_input()
    entries = printed_audits(run, server.rack, server.wait().output, tmp_path)[1]
    kinds = {f"req {address} {slave_diag(address, 5).hex()} | WaitPrm none | reply {fresh_diagnosis(address, 5).hex()} Done":
             pieces * size for address in (1, 2)}
    assert Counter(entry.split(" ", 1)[1] for entry in entries) == {**kinds, "tick 1 | none | released": 1}


def send_until_blocked(connection, request, pid):
    """Sends a request again and again, reads nothing, and returns how many were sent when the program took no more of them.

    That is so once the connection takes no octet and all threads of the program sleep, ten times one after another.
    """
    sent, looks, until = 0, 0, time.monotonic() + PATIENCE
    connection.setblocking(False)
    while looks < 10:
        assert time.monotonic() < until, f"after {sent} octets the program still takes more"
        if select.select([], [connection], [], 0.05)[1]:
            sent += connection.send(request[sent % len(request):] + request * 100)
            looks = 0
        else:
            looks = looks + 1 if are_asleep(pid) else 0
    return sent // len(request)


def test_client_that_does_not_read(serve, run, tmp_path):
    """It holds up itself only, and the program takes no more of its requests than it can answer."""
    # Get_Cfg of a slave with 244 empty module slots: 11 octets are answered by 255.
    server = serve(rack(line(1, slave(5, cfg="00" * 244))), "--until-input-ends", piped=True)
    filler = socket.socket()
    for option in (socket.SO_RCVBUF, socket.SO_SNDBUF):
        filler.setsockopt(socket.SOL_SOCKET, option, 4096)
    filler.connect(("127.0.0.1", server.ports[1].listen))
    filler.sendall(b"\x01")
    request = frames.request(5, 1, FIRST, b"", GET_CFG, MASTER)
    sent = send_until_blocked(filler, request, server.pid)
    two = open_master(server.ports[1].listen, 2)
    assert exchange(two, slave_diag(2, 5)) == fresh_diagnosis(2, 5)
    with server.operator() as operator:
        assert answer_to(operator, "owned 1") == "owned"
    filler.close()
    assert exchange(two, slave_diag(2, 5)) == fresh_diagnosis(2, 5)
    two.close()
    server.end_input()
    entries = printed_audits(run, server.rack, server.wait().output, tmp_path)[1]
    asked = Counter(entry.split(" ")[2] for entry in entries)
    assert set(asked) == {"1", "2"}
    assert asked["2"] == 2
    assert 0 < asked["1"] < sent
    assert all(f" req 1 {request.hex()} " in entry for entry in entries if " req 1 " in entry)


def test_program_that_is_stopped(serve):
    """Its reads are interrupted when it goes on again, and no session ends by that."""
    server = serve(rack())
    one, operator = open_master(server.ports[1].listen, 1), server.operator()
    assert answer_to(operator, "tick 1") == "released"
    for _ in range(5):
        server.send_signal(signal.SIGSTOP)
        wait_for(lambda: {state for state, _ in threads(server.pid).values()} == {"T"})
        server.send_signal(signal.SIGCONT)
        wait_until_asleep(server.pid)
    assert exchange(one, slave_diag(1, 5)) == fresh_diagnosis(1, 5)
    assert answer_to(operator, "tick 2") == "released"
