"""What browsers begin connections with: it is rejected with one row of the log at either port, and nothing of it is acted on."""
import re
import time

import pytest

from rackd.connection import Connection
from rackd.faults import SessionEnded
from support.clients import connect, exchange, has_ended, open_master, receive, wait_for
from support.racks import line, rack
from support.telegrams import fresh_diagnosis, slave_diag

# The masters whose addresses are first octets of what browsers send, and master 1.
MASTERS = [0, 1, 22, 33, 70, 71, 80, 102, 103, 104]
# What follows the beginning: rows of commands and right telegrams of these masters.
ACTS = b"\nin 5 beef\nhalt\n" + b"".join(slave_diag(master, 5) for master in MASTERS)
HEAD = b" /x HTTP/1.1\r\nHost: 127.0.0.1\r\nContent-Length: 99\r\n\r\n"
BEGINNINGS = {
    **{f"method-{method.decode()}": method + HEAD for method in (b"GET", b"FOO", b"!x", b"hAAh", b"get", b"fOo", b"h")},
    "form": b"POST /x HTTP/1.1\r\nContent-Type: text/plain\r\n\r\n",
    "WebSocket": b"GET /x HTTP/1.1\r\nUpgrade: websocket\r\n\r\n",
    "TLS-1.0": b"\x16\x03\x01\x02\x00\x01\x00\x01\xfc\x03\x03",
    "TLS-1.3": b"\x16\x03\x03\x02\x00\x01\x00\x01\xfc\x03\x03",
    "STUN": b"\x00\x03\x00\x24\x21\x12\xa4\x42",
}
# Where what is sent is cut into pieces.
CUTS = [(), (1,), (1, 3, 7), (5, 9)]


def send_in_pieces(connection: Connection, octets, cuts):
    """Sends octets, with a pause after each piece but the last. The other end may close the connection before all is sent."""
    for start, end in zip((0, *cuts), (*cuts, len(octets))):
        try:
            connection.send(octets[start:end])
        except SessionEnded:
            return
        time.sleep(0.02 if end < len(octets) else 0)


@pytest.mark.parametrize("port", ["listen", "operator"])
@pytest.mark.parametrize("beginning", BEGINNINGS.values(), ids=BEGINNINGS)
def test_beginning_of_a_browser(serve, tmp_path, beginning, port):
    """It is rejected whether it comes at once or in pieces. A first octet that comes alone is taken for an address."""
    server = serve(rack(line(1, 5, masters=MASTERS)), "--log", "--audit", tmp_path / "audit", "--until-input-ends", piped=True)
    rejected = "line 1: HTTP, TLS or STUN request rejected"
    for number, cuts in enumerate(CUTS, 1):
        connection = connect(getattr(server.ports[1], port))
        send_in_pieces(connection, beginning + ACTS, cuts)
        assert has_ended(connection)
        connection.close()
        # The address is free again before the next connection comes.
        wait_for(lambda number=number: server.errors().count(rejected) == number)
        wait_for(lambda: server.errors().count(" connected\n") == server.errors().count(" ended: "))
    assert server.master(33).raw(slave_diag(33, 5)) == fresh_diagnosis(33, 5)
    rows = (tmp_path / "audit" / "line-1-1.audit").read_bytes().splitlines()[1:]
    assert [row.split(b" | ")[0] for row in rows] == [b"1 req 33 " + slave_diag(33, 5).hex().encode()]
    assert server.operator().ask("show 5") == "show 5 WaitPrm none in 0000 out 0000 wd off"
    server.end_input()
    log = server.wait().errors
    assert log.count(rejected) == len(CUTS)
    assert not re.search("more rows about", log)


def test_noise_of_a_master_is_no_browser(serve):
    """Noise before a telegram is dropped, and behind the first right telegram anything may come."""
    master = open_master(serve(rack()).ports[1].listen, 1)
    for noise in (b"\x33\x44 HTTP/2 \x16\x03\x01", b"GET / HTTP/1.1\r\n\r\n"):
        master.send(noise)
        assert exchange(master, slave_diag(1, 5, 0x4D)) == fresh_diagnosis(1, 5)


@pytest.mark.parametrize(("rows", "answers"), [
    (b"what is this\nGET / HTTP/1.1\ntick 1\n", b"fault NotACommand\nfault NotACommand\nreleased\n"),
    (b"\xff\xfe\ntick 1\n", b"fault NotACommand\nreleased\n"),
], ids=["no-command", "not-utf-8"])
def test_noise_of_an_operator_is_no_browser(serve, rows, answers):
    """A first row that is no command is answered, and so is each row behind it, also one that a browser may send."""
    operator = connect(serve(rack()).ports[1].operator)
    for row in rows.splitlines(keepends=True):
        operator.send(row)
    assert receive(operator, len(answers)) == answers
