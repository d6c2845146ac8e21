"""Requests of HTTP: which the page answers, with which fields, and which it refuses."""
import contextlib
import http.client
import re
import socket

import pytest

from support.clients import connect_socket
from support.processes import PATIENCE
from support.watching import DAY_RACK, Watched, ask, count, day_rows

FIELDS = {
    "allow": "GET, HEAD",
    "cache-control": "no-store",
    "x-content-type-options": "nosniff",
    "referrer-policy": "no-referrer",
    "content-security-policy": "default-src 'none'; style-src 'self'; script-src 'self'; connect-src 'self'; img-src data:; "
                               "base-uri 'none'; form-action 'none'; frame-ancestors 'none'",
}
HTML, CSS, SCRIPT, JSON = ("text/html; charset=utf-8", "text/css; charset=utf-8", "text/javascript; charset=utf-8",
                           "application/json")


@pytest.fixture(scope="module")
def port(program, tmp_path_factory):
    """The port of a page, which no request changes. It shows two entries of line 1."""
    folder = tmp_path_factory.mktemp("audit")
    (folder / "line-1-1.audit").write_bytes(b"".join(day_rows()[:3]))
    watched = Watched(program, DAY_RACK, folder)
    try:
        watched.wait_until_ready().wait_for_line(count, 2)
        yield watched.port
    finally:
        watched.kill()


@pytest.mark.parametrize("path, name, kind", [
    ("/", "page.html", HTML), ("/page.css", "page.css", CSS), ("/page.js", "page.js", SCRIPT),
])
def test_files_of_the_page(port, top, path, name, kind):
    """The program has the files of the page as they are in the sources."""
    answer = ask(port, "GET", path)
    assert (answer.status, answer.fields["content-type"]) == (200, kind)
    assert answer.body == (top / "crates" / "watch_page" / "page" / name).read_bytes()
    assert path != "/" or answer.body.lower().startswith(b"<!doctype html>")


@pytest.mark.parametrize("path, kind", [("/", HTML), ("/page.css", CSS), ("/page.js", SCRIPT), ("/state.json", JSON)])
def test_fields(port, path, kind):
    """Each answer forbids what the page doesn't need, and no other origin is allowed. HEAD gets the fields without a body."""
    answer, head = ask(port, "GET", path), ask(port, "HEAD", path)
    assert {name: answer.fields.get(name) for name in FIELDS} == FIELDS
    assert not [name for name in answer.fields if name.startswith("access-control")]
    assert (head.status, head.fields["content-type"], head.body) == (200, kind, b"")
    assert head.fields["content-length"] == str(len(answer.body))
    assert {name: head.fields.get(name) for name in FIELDS} == FIELDS


@pytest.mark.parametrize("method, path, host, status", [
    ("GET", "/", "localhost:{port}", 200), ("GET", "/state.json", "evil.example", 421), ("GET", "/", "127.0.0.1", 421),
    ("GET", "/", "127.0.0.1:{next}", 421), ("GET", "/", "127.0.0.1:{port}0", 421),
    ("GET", "/", "127.0.0.1:{port}.evil.example", 400), ("GET", "/", "LOCALHOST:{port}", 421),
    ("GET", "/x", None, 404), ("GET", "/page.css/", None, 404), ("POST", "/", None, 405), ("OPTIONS", "/state.json", None, 405),
    ("PUT", "/x", None, 405), ("POST", "/", "evil.example", 421),
])
def test_hosts_methods_and_paths(port, method, path, host, status):
    """Only GET and HEAD are answered, only for the names of this machine, and only for the paths of the page."""
    named = None if host is None else host.format(port=port, next=port + 1)
    assert ask(port, method, path, named).status == status


def answers_to(port, octets):
    """Sends octets and ends the connection in this direction, and returns all octets that come then."""
    got = b""
    with connect_socket(port) as client:
        # it may answer and close the connection before it has read everything
        with contextlib.suppress(OSError):
            client.sendall(octets)
            client.shutdown(socket.SHUT_WR)
        with contextlib.suppress(ConnectionResetError):
            while piece := client.recv(65536):
                got += piece
    return got


def statuses_of(port, octets):
    """Returns the statuses of all answers to these octets."""
    return [status.decode() for status in re.findall(rb"HTTP/1\.[01] (\d\d\d)", answers_to(port, octets))]


# The fields of each answer behind `content-type`, in their order.
FIELD_ROWS = "".join(f"{name}: {value}\r\n" for name, value in FIELDS.items())
TEXT = "text/plain; charset=utf-8"
# Status, kind and body of each answer. The body of a file of the page is its name in angle brackets.
ANSWERS = {
    "document": ("200 OK", HTML, "<page.html>"),
    "style sheet": ("200 OK", CSS, "<page.css>"),
    "script": ("200 OK", SCRIPT, "<page.js>"),
    "no such page": ("404 Not Found", TEXT, "no such page\n"),
    "another method": ("405 Method Not Allowed", TEXT, "only GET and HEAD\n"),
    "another host": ("421 Misdirected Request", TEXT, "this server has another name\n"),
}
# The two names of the server.
NUMBERED, NAMED = "127.0.0.1:{port}", "localhost:{port}"
# The line of a request without its version, its Host, and the answer.
WHOLE_ANSWERS = [
    ("GET /", NUMBERED, "document"),
    ("HEAD /", NAMED, "document"),
    ("GET /page.css", NUMBERED, "style sheet"),
    ("GET /page.js", NAMED, "script"),
    ("GET /page.html", NUMBERED, "no such page"),
    ("POST /", NUMBERED, "another method"),
    ("OPTIONS *", NAMED, "another method"),
    ("POST /", "example.org", "another host"),
    ("GET /", "localhost", "another host"),
    ("GET /page.css", "localhost:{port}0", "another host"),
    ("GET /page.js", "LOCALHOST:{port}", "another host"),
    ("GET http://localhost:{port}/", NAMED, "document"),
    ("GET http://127.0.0.1:{port}/page.css", NAMED, "style sheet"),
    ("GET http://localhost:{port}/", "example.org", "another host"),
    ("GET http://example.org/", NAMED, "another host"),
    ("GET http://me@localhost:{port}/", NAMED, "another host"),
    ("GET https://localhost:{port}/", NAMED, "another host"),
    ("CONNECT localhost:{port}", NAMED, "another method"),
]
BAD_REQUEST = "HTTP/1.1 400 Bad Request\r\nconnection: close\r\ncontent-length: 0\r\n\r\n"
OLD_BAD_REQUEST = (f"HTTP/1.0 400 Bad Request\r\ncontent-type: {TEXT}\r\n{FIELD_ROWS}content-length: 29\r\n"
                   "connection: close\r\n\r\nexactly one Host is required\n")
# What has not one Host, and all that is answered: before the page sees the request, and by the page in HTTP/1.0.
HOSTS = [
    ("GET / HTTP/1.1\r\nHost: localhost:{port}\r\nHost: localhost:{port}\r\n\r\n", BAD_REQUEST),
    ("GET / HTTP/1.1\r\n\r\n", BAD_REQUEST),
    ("GET / HTTP/1.0\r\n\r\n", OLD_BAD_REQUEST),
]


def octets_of(top, line, answer):
    """Returns all octets of an answer. To HEAD its body is not sent."""
    status, kind, body = ANSWERS[answer]
    octets = (top / "crates" / "watch_page" / "page" / body[1:-1]).read_bytes() if body.startswith("<") else body.encode()
    head = f"HTTP/1.1 {status}\r\ncontent-type: {kind}\r\n{FIELD_ROWS}content-length: {len(octets)}\r\n\r\n"
    return head.encode() + (b"" if line.startswith("HEAD ") else octets)


@pytest.mark.parametrize("line, host, answer", WHOLE_ANSWERS)
def test_answers_to_the_octet(port, top, line, host, answer):
    """The server is judged first, then the method. A target may name the server's own host as its authority."""
    request = f"{line} HTTP/1.1\r\nHost: {host}\r\n\r\n".format(port=port)
    assert answers_to(port, request.encode()) == octets_of(top, line, answer)


@pytest.mark.parametrize("request_text, answer", HOSTS, ids=["two", "none", "none-in-http-1.0"])
def test_one_host_is_required(port, request_text, answer):
    assert answers_to(port, request_text.format(port=port).encode()).decode() == answer


@pytest.mark.parametrize("line", ["GET /state.json", "GET /state.json?run=7&after=12"])
def test_state_has_the_fields(port, line):
    """The state is JSON with the fields of all answers; to HEAD its length comes without it."""
    get, head = (answers_to(port, f"{word} {line[4:]} HTTP/1.1\r\nHost: localhost:{port}\r\n\r\n".encode())
                 for word in ("GET", "HEAD"))
    fields, body = get.split(b"\r\n\r\n", 1)
    assert fields.decode() == (f"HTTP/1.1 200 OK\r\ncontent-type: {JSON}\r\n{FIELD_ROWS}content-length: {len(body)}")
    assert head == fields + b"\r\n\r\n"


# Octets of requests, in which {here} is the right Host, and the status that each gets.
REQUESTS = {
    "two Hosts": ("GET / HTTP/1.1\r\n{here}{here}\r\n", "400"),
    "no Host": ("GET / HTTP/1.1\r\n\r\n", "400"),
    "a target with its own authority": ("GET http://127.0.0.1:{port}/ HTTP/1.1\r\n{here}\r\n", "200"),
    "no request": ("nonsense\r\n\r\n", "400"),
    "a target with its own name, and another path": ("GET HTTP://localhost:{port}/x HTTP/1.1\r\n{here}\r\n", "404"),
    "a right target of another Host": ("GET http://127.0.0.1:{port}/ HTTP/1.1\r\nHost: evil.example\r\n\r\n", "421"),
    "a target of another Host": ("GET http://evil.example/ HTTP/1.1\r\n{here}\r\n", "421"),
    "a target with another port": ("GET http://127.0.0.1:{next}/ HTTP/1.1\r\n{here}\r\n", "421"),
    "a target with another scheme": ("GET https://127.0.0.1:{port}/ HTTP/1.1\r\n{here}\r\n", "421"),
    "HTTP/1.0 without Host": ("GET / HTTP/1.0\r\n\r\n", "400"),
    "HTTP/1.0 with an authority and no Host": ("GET http://127.0.0.1:{port}/ HTTP/1.0\r\n\r\n", "400"),
    "HTTP/1.0 with two Hosts": ("GET / HTTP/1.0\r\n{here}{here}\r\n", "400"),
    "HTTP/1.0": ("GET / HTTP/1.0\r\n{here}\r\n", "200"),
    "fields that are too long": ("GET / HTTP/1.1\r\n{here}X: {many}\r\n\r\n", "431"),
    "CONNECT": ("CONNECT 127.0.0.1:{port} HTTP/1.1\r\n{here}\r\n", "405"),
}


@pytest.mark.parametrize("name", REQUESTS)
def test_requests_as_octets(port, name):
    text, status = REQUESTS[name]
    sent = text.format(here=f"Host: 127.0.0.1:{port}\r\n", port=port, next=port + 1, many="y" * 40_000)
    assert statuses_of(port, sent.encode()) == [status]


def test_request_with_a_body(port):
    """A request with a body is refused, and the body is no request."""
    sent = f"POST / HTTP/1.1\r\nHost: 127.0.0.1:{port}\r\nContent-Length: 5\r\n\r\nhello"
    statuses = statuses_of(port, sent.encode())
    assert len(statuses) == 1 and statuses[0].startswith("4")


def test_requests_in_a_row(port):
    """Requests of one connection that come at once get their answers in turn, and the last one ends the connection."""
    here = f"Host: 127.0.0.1:{port}\r\n"
    sent = f"GET /page.css HTTP/1.1\r\n{here}\r\n" * 2 + f"GET /x HTTP/1.1\r\n{here}Connection: close\r\n\r\n"
    with connect_socket(port) as client:
        client.sendall(sent.encode())
        got = b"".join(iter(lambda: client.recv(65536), b""))
    assert re.findall(rb"HTTP/1\.1 (\d+)", got) == [b"200", b"200", b"404"]


def test_connection_that_stays(port):
    """A connection stays open after an answer, and gets the next one."""
    connection, sockets = http.client.HTTPConnection("127.0.0.1", port, timeout=PATIENCE), set()
    for path, status in ("/x", 404), ("/page.css", 200), ("/y", 404):
        connection.request("GET", path)
        sockets.add(connection.sock)
        answer = connection.getresponse()
        answer.read()
        assert (answer.status, connection.sock is not None) == (status, True)
    assert len(sockets) == 1
    connection.close()
