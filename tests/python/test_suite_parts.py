"""What `python -m rackd suite` is made of: requests of a journal, which of them were sent again, and a relay."""
import socket

import pytest

from rackd import Master, frames
from rackd.suite_plug import Plug
from rackd.suite_retries import reply_of, retries
from rackd.suite_rows import Request, Requests

from support.clients import wait_for
from support.processes import PATIENCE
from support.racks import line as line_text
from support.racks import rack as rack_text
from support.racks import slave


class Files:
    """A line whose journal has these files, as far as they exist."""

    def __init__(self, *paths):
        self.paths = paths

    def files(self):
        return [path for path in self.paths if path.exists()]


def test_requests(tmp_path):
    """Rows of other events are left out, rows that are not whole are read later, and parts follow one another."""
    one, two = tmp_path / "one", tmp_path / "two"
    one.write_bytes(b"rack-audit 3 line 1\n1 in 5 aa55 | WaitPrm none | done\n"
                    b"2 req 1 6805056885816d3c3eed16 | WaitPrm none | reply e5 Do")
    requests = Requests(Files(one, two))
    assert requests.read() == []
    with open(one, "ab") as file:
        file.write(b"ne\n3 tick 1 | none | released\n")
    request, = requests.read()
    assert (request.place, request.master, request.slave, request.point, request.data) == (2, 1, 5, 60, b"")
    assert request.rules == {5: "Done"}
    assert (request.is_answered, request.reply, request.is_repeat) == (True, "e5", False)
    assert len(requests.read()) == 1
    with open(one, "ab") as file:
        file.write(b"4 req 2 68070768ff82463a3e02034416 | none | spread 5:Done 6:NotSelected\n")
    two.write_bytes(b"5 req 1 100501494f16 | DataExch 1 | reply 100105000616 Status\n")
    found = requests.read()
    assert [(each.place, each.master, each.slave, each.point, each.data) for each in found[1:]] == [
        (4, 2, 127, 58, b"\x02\x03"), (5, 1, 5, None, b"")]
    assert [each.rules for each in found[1:]] == [{5: "Done", 6: "NotSelected"}, {5: "Status"}]
    assert len(requests.read()) == 3


# Requests to slave 5: Data_Exchange with FCV 1 and either FCB, one with FCV 0, and FDL status; and a reply with inputs.
ZERO, ONE, FIRST, STATUS = 0x5D, 0x7D, 0x6D, 0x49
REPLY = frames.sd2(1, 5, 0x08, b"\xaa\x55").hex()


def requests_of(*codes):
    """Returns requests with these function codes. One that has the FCB of the one before is a repeat, -code has no reply."""
    found, before = [], None
    for place, code in enumerate(codes, 1):
        rule = "Repeat" if abs(code) == before else "Done"
        outcome = f"reply {REPLY} {rule}" if code > 0 else "silent"
        found.append(Request(place, 1, frames.request(5, 1, abs(code), b"\x01\x02" if abs(code) != STATUS else b""), outcome))
        before = abs(code) if abs(code) in (ZERO, ONE) else before
    return found


# What a master sends, the number of the reply that is lost, and the places of the requests that decide something, each with
# whether it was sent again.
SENT = {
    "sent-again": ([FIRST, ZERO, ONE, ZERO, ONE, ONE, ZERO], 5, [(5, True)]),
    "with-the-other-FCB": ([FIRST, ZERO, ONE, ZERO, ONE, ZERO, ONE], 5, [(5, False)]),
    "with-the-other-FCB-and-then-like-a-retry": ([FIRST, ZERO, ONE, ZERO, ONE, ZERO, ZERO, ONE], 5, [(5, False)]),
    "with-FCV-0": ([FIRST, ZERO, ONE, ZERO, ONE, FIRST], 5, [(5, False)]),
    "not-at-all": ([FIRST, ZERO, ONE, ZERO, ONE], 5, [(5, False)]),
    "behind-an-FDL-status": ([FIRST, ZERO, ONE, ZERO, ONE, STATUS, ONE], 5, [(5, True)]),
    "the-first-request": ([FIRST, FIRST, ZERO], 1, []),
    "an-FDL-status": ([FIRST, STATUS, ZERO, ONE], 2, []),
    "itself-a-retry": ([FIRST, ZERO, ONE, ONE, ONE, ZERO], 4, []),
    "shortly-behind-a-retry": ([FIRST, ZERO, ZERO, ONE, ZERO, ONE, ZERO], 6, []),
    "long-behind-a-retry": ([FIRST, ZERO, ZERO, ONE, ZERO, ONE, ZERO, ZERO], 7, [(7, True)]),
    "without-a-reply-before": ([-FIRST, FIRST, ZERO, ONE, ZERO, ZERO], 4, [(5, True)]),
}


@pytest.mark.parametrize("name", SENT)
def test_retries(name):
    codes, number, verdicts = SENT[name]
    requests = requests_of(*codes)
    seen = [request.reply for request in requests if request.is_answered]
    assert [(request.place, again) for request, again in retries(requests, seen, [number])] == verdicts


def test_retries_of_several_requests():
    requests = requests_of(FIRST, ZERO, ONE, ONE, ZERO, ONE, ZERO, ONE, ZERO, ONE)
    seen = [request.reply for request in requests]
    assert [(request.place, again) for request, again in retries(requests, seen, [3, 5, 8])] == [(3, True), (8, False)]


def test_retries_if_the_cable_counts_other_replies():
    """An acknowledgement that comes late counts for another slave: then the numbers decide nothing."""
    requests = requests_of(FIRST, ZERO, ONE, ZERO, ZERO, ONE)
    seen = [request.reply for request in requests]
    assert len(retries(requests, seen, [4])) == 1
    assert retries(requests, ["e5", *seen], [4]) == [] and retries(requests, seen[:3], [4]) == []


def test_reply_of_a_row():
    assert reply_of("master 1 reply 5: late 0 e5 -> e5") == "e5"
    assert reply_of("master 1 reply 5: lost 1001050006 -> -") == "1001050006"


@pytest.fixture
def rack_toml():
    """Two lines, whose slaves have the numbers of the lines as their addresses."""
    return rack_text(*(line_text(number, slave(number, ident=number, cfg="11")) for number in (5, 6)))


@pytest.fixture
def plug(rack):
    """A relay to line 5."""
    plug = Plug(rack.line(5).listen)
    yield plug
    plug.close()


def is_there(master, address):
    """Returns whether a slave replies soon."""
    master.timeout = 0.2
    return master.fdl_status(address)


def test_other_line_in_the_same_session(rack, plug):
    with Master(plug.listen, 1) as master:
        master.timeout = PATIENCE
        assert master.slave_diag(5).ident == 5
        plug.put(rack.line(6).listen)
        wait_for(lambda: is_there(master, 6))
        assert not is_there(master, 5)


def test_other_line_in_the_next_session(rack, plug):
    plug.put(rack.line(6).listen)
    with Master(plug.listen, 1) as master:
        master.timeout = PATIENCE
        assert master.slave_diag(6).ident == 6


def test_end_of_a_relay(plug):
    with socket.create_connection(("127.0.0.1", plug.listen), PATIENCE) as client:
        client.sendall(b"\x01")
        assert client.recv(1) == b"\xe5"
        plug.close()
        assert client.recv(1) == b""
    with pytest.raises(ConnectionRefusedError):
        socket.create_connection(("127.0.0.1", plug.listen))
    plug.close()


@pytest.mark.parametrize("first", [b"\x07", b""], ids=["no-master-of-the-line", "no-address"])
def test_master_that_the_line_refuses(plug, first, monkeypatch):
    monkeypatch.setattr("rackd.connection.HELD_TIME", 0.2)
    with socket.create_connection(("127.0.0.1", plug.listen), PATIENCE) as client:
        client.sendall(first)
        client.shutdown(socket.SHUT_WR)
        assert client.recv(1) == b""
    with Master(plug.listen, 1) as master:
        master.timeout = PATIENCE
        assert master.slave_diag(5).ident == 5
