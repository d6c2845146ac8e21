"""Connections of a cable: which masters are rejected, what of web requests reaches the line, and how both sides end."""
import socket

import pytest

from support.cables import open_plain_session, open_session_soon, rest, take
from support.clients import connect_socket, exchange, open_master
from support.played_ports import PlayedPort
from support.telegrams import ACCEPTED, fresh_diagnosis, slave_diag

# What follows the first octets of a web request here: also a command of an operator, and a telegram.
TAIL = b" /x HTTP/1.1\r\nHost: 127.0.0.1\r\n\r\nin 5 beef\n" + slave_diag(1, 5)
HELLO = b"\x16\x03\x01\x02\x00\x01\x00\x01\xfc\x03\x03" + slave_diag(1, 5)
STUN = b"\x00\x01\x00\x00\x21\x12\xa4\x42" + bytes(12) + slave_diag(1, 5)
REPORT = "a master is rejected: an HTTP, TLS or STUN request"


def is_over(connection):
    """Returns whether a connection ends or is reset, without anything that comes before."""
    return take(connection, 1) == b""


def test_masters_that_the_line_rejects(served, start_cable):
    """A master that is none of the line, and one whose address is held, are rejected by the cable too."""
    cable = start_cable(served().ports[1].listen)
    stranger = connect_socket(cable.listen)
    stranger.sendall(b"\x09")
    assert is_over(stranger)
    master = open_master(cable.listen, 1)
    second = connect_socket(cable.listen)
    second.sendall(b"\x01")
    assert is_over(second)
    assert exchange(master, slave_diag(1, 5)) == fresh_diagnosis(1, 5)


def test_no_line(served, start_cable):
    """Without a line a master is rejected, and that is reported, also without --log."""
    server = served()
    cable = start_cable(server.ports[1].listen)
    server.kill()
    assert is_over(connect_socket(cable.listen))
    assert cable.errors.row() == "a master is rejected: cannot connect to the line"


@pytest.mark.parametrize("request_of_the_web", [
    pytest.param(b"GET" + TAIL, id="get"), pytest.param(b"FOO" + TAIL, id="any method"), pytest.param(b"!x" + TAIL, id="mark"),
    pytest.param(HELLO, id="tls"), pytest.param(STUN, id="stun")])
def test_web_request(start_cable, request_of_the_web):
    """Nothing of a web request reaches the line, both connections end, and it is reported."""
    with PlayedPort() as line:
        cable = start_cable(line.number, "--log")
        for _ in range(2):
            browser = connect_socket(cable.listen)
            line.accept()
            browser.sendall(request_of_the_web)
            assert line.rest() == b""
            assert is_over(browser)
            assert cable.errors.row() == REPORT
            line.connection.close()
        assert cable.errors.so_far() == ""


@pytest.mark.parametrize("first, more", [
    pytest.param(b"F", b"OO" + TAIL, id="the method began as an address"), pytest.param(b"\x01", TAIL, id="after an address")])
def test_web_request_behind_an_address(start_cable, first, more):
    """Nothing reaches the line but the address that shows no web request yet."""
    with PlayedPort() as line:
        cable = start_cable(line.number, "--log")
        browser = connect_socket(cable.listen)
        line.accept()
        browser.sendall(first)
        assert line.take(1) == first
        line.send(ACCEPTED)
        assert take(browser, 1) == ACCEPTED
        browser.sendall(more)
        assert line.rest() == b""
        assert is_over(browser)
        assert cable.errors.row() == REPORT


def test_octets_of_a_web_request_behind_a_telegram(start_cable):
    """Behind the first right telegram of a master the same octets pass. 16, which begins TLS, may be its address."""
    with PlayedPort() as line:
        cable = start_cable(line.number, "--log")
        master = connect_socket(cable.listen)
        line.accept()
        master.sendall(b"\x16")
        assert line.take(1) == b"\x16"
        line.send(ACCEPTED)
        assert take(master, 1) == ACCEPTED
        for sent in (slave_diag(0x16, 5), TAIL):
            master.sendall(sent)
            assert line.take(len(sent)) == sent
        assert cable.errors.so_far() == ""


def test_master_that_ends(served, start_cable):
    """The end of a master ends its session at the line, so that it is accepted again."""
    cable = start_cable(served().ports[1].listen, "--delay", "100")
    for _ in range(5):
        open_session_soon(cable.listen, 1).close()
    assert exchange(open_session_soon(cable.listen, 1), slave_diag(1, 5)) == fresh_diagnosis(1, 5)


def test_master_that_sends_no_more(served, start_cable):
    """A master that has sent its last request gets the replies that are left, and then the end."""
    cable = start_cable(served().ports[1].listen, "--delay", "100")
    master = open_plain_session(cable.listen, 3)
    master.sendall(slave_diag(3, 6))
    assert rest(master) == fresh_diagnosis(3, 6)


def test_end_of_the_line(served, start_cable):
    """What is late when the line ends goes out before the end."""
    server = served()
    cable = start_cable(server.ports[1].listen)
    master = open_plain_session(cable.listen, 2)
    cable.waits("late 5 1 500")
    master.sendall(slave_diag(2, 5))
    assert cable.output.row() == "done late 5 1 500"
    server.kill()
    assert take(master, 1 + len(fresh_diagnosis(2, 5))) == fresh_diagnosis(2, 5)


def test_end_of_a_line_with_part_of_a_telegram(start_cable):
    """What is left of either side at its end goes out too, although it is no whole telegram."""
    with PlayedPort() as line:
        cable = start_cable(line.number)
        master = connect_socket(cable.listen)
        master.sendall(b"\x01")
        line.accept()
        assert line.take(1) == b"\x01"
        line.send(ACCEPTED)
        assert take(master, 1) == ACCEPTED
        master.sendall(slave_diag(1, 5)[:7])
        master.shutdown(socket.SHUT_WR)
        assert line.rest() == slave_diag(1, 5)[:7]
        line.send(fresh_diagnosis(1, 5)[:9])
        line.end()
        assert take(master, 10) == fresh_diagnosis(1, 5)[:9]
