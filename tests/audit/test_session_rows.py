"""The rows that a session leaves in the file of its line: each comes before its reply, and no reply behind a row that is cut."""
import errno
import resource
import signal
import socket
import threading

from support.audit_texts import part_name, text_name
from support.clients import answer_to, connect, connect_socket, exchange, free_ports, open_master, receive, wait_for
from support.racks import line, rack, slave
from support.sleeping import unread_of
from support.telegrams import ACCEPTED, fresh_diagnosis, slave_diag
from support.watched_sockets import CallOrder
from support.watched_writes import WatchedWrites, path_of

# FDL status requests of masters 1 and 2 to address 9, where no slave is.
STATUS_BY_1, STATUS_BY_2 = bytes.fromhex("100901495316"), bytes.fromhex("100902495416")
HEADER = "rack-audit 2 line 1\n"
ROWS = [
    f"1 req 1 {slave_diag(1, 5).hex()} | WaitPrm none | reply {fresh_diagnosis(1, 5).hex()} Done\n",
    f"2 req 1 {STATUS_BY_1.hex()} | none | silence NoStation\n",
    f"3 req 2 {STATUS_BY_2.hex()} | none | silence NoStation\n",
]
SECOND_DIAG = f"2 req 2 {slave_diag(2, 5).hex()} | WaitPrm none | reply {fresh_diagnosis(2, 5).hex()} Done\n"
# The bytes of the header and of the beginning of a row.
CUT = 29
# How many ticks an operator sends at once, the answer to one, and more ticks than the rows of a part.
TICKS, RELEASED, MOST = 1000, b"released\n", 60_000


def test_rows_come_before_replies(serve, tmp_path):
    """The row of each request is written before its reply, and before the session reads on."""
    order = CallOrder()
    server = serve(rack(), "--audit", tmp_path / "audit", before=order.ask)
    path = tmp_path / "audit" / text_name(1)
    assert order.calls == ["row"], "the header comes first"
    one = open_master(server.ports[1].listen, 1)
    assert path.read_text() == HEADER
    assert exchange(one, slave_diag(1, 5)) == fresh_diagnosis(1, 5)
    assert path.read_text() == HEADER + ROWS[0]
    one.send(STATUS_BY_1)
    wait_for(lambda: path.read_text() == HEADER + "".join(ROWS[:2]))
    one.close()
    wait_for(lambda: order.calls == ["row", "read", "write", "read", "row", "write", "read", "row", "read"])
    open_master(server.ports[1].listen, 2).send(STATUS_BY_2)
    wait_for(lambda: path.read_text() == HEADER + "".join(ROWS))


def test_no_reply_behind_a_row_that_is_cut(serve, tmp_path):
    """If the row of a request can't be written whole, nothing more is written, neither a reply nor a row."""
    # all files of the program are limited, so it writes no file of ports
    listen, operator = free_ports(2)
    server = serve(rack(line(1, 5, listen=listen, operator=operator)), "--audit", tmp_path / "audit", names_ports=False,
                   limits=[(resource.RLIMIT_FSIZE, CUT)], ignores=[signal.SIGXFSZ])
    client = connect_socket(listen)
    client.sendall(b"\x01" + slave_diag(1, 5) + STATUS_BY_1)
    assert client.recv(1 + 17, socket.MSG_WAITALL) == ACCEPTED
    assert server.wait().status == 5
    assert (tmp_path / "audit" / text_name(1)).read_text() == f"{HEADER}1 req 1 6"


class FirstRowFails(WatchedWrites):
    """Holds up the write of the first row until `released` is set, and then refuses it. All other writes go on."""

    def __init__(self):
        self.is_held = threading.Event()
        super().__init__()

    def asked(self, question):
        is_first_row = False
        if path_of(question.thread, question.words[0]).endswith(".audit"):
            is_first_row = self.writes == 1
            self.writes += 1
        if is_first_row:
            self.hold(question, released=self.released, error=errno.ENOSPC)
            self.is_held.set()
        else:
            self.go_on(question)


def test_no_row_behind_one_that_fails(serve, tmp_path):
    """Behind a row that can't be written no other row is, though there would be room, and nobody gets a reply."""
    watch = FirstRowFails()
    server = serve(rack(), "--audit", tmp_path / "audit", before=watch.ask)
    clients = [connect_socket(server.ports[1].listen) for _ in range(2)]
    for address, client in enumerate(clients, 1):
        client.sendall(bytes([address]))
        assert client.recv(1) == ACCEPTED
    clients[0].sendall(slave_diag(1, 5))
    wait_for(watch.is_held.is_set)
    assert unread_of(clients[1], slave_diag(2, 5), server.pid) == 0
    watch.released.set()
    assert [client.recv(1) for client in clients] == [b"", b""]
    done = server.wait()
    assert (done.status, done.output) == (5, HEADER + ROWS[0] + SECOND_DIAG)
    assert (tmp_path / "audit" / text_name(1)).read_text() == HEADER
    assert watch.writes == 2


def test_rows_of_an_endless_line(serve, tmp_path):
    """The text of an endless line has version 3, and a row for each event."""
    server = serve(rack(line(1, 5, capacity=16416)), "--audit", tmp_path / "audit", "--endless")
    path, text = tmp_path / "audit" / part_name(1), "rack-audit 3 line 1\n"
    with server.operator() as operator:
        for place in range(1, 8):
            assert answer_to(operator, "tick 1") == "released"
            text += f"{place} tick 1 | none | released\n"
            assert path.read_text() == text


def test_head_of_a_new_slave(serve, tmp_path, assert_legal):
    """The head of a part has the line behind the last entry of the part before: its time, and the slave as the masters left it."""
    server = serve(rack(line(1, slave(5), masters=[1, 2], capacity=16416)), "--audit", tmp_path / "audit", "--endless",
                   "--part", "1")
    paths, ticks = [tmp_path / "audit" / part_name(part) for part in (1, 2)], 0
    operator = connect(server.ports[1].operator)
    while not paths[1].exists() or paths[1].read_bytes().endswith(b"none\n"):
        assert ticks < MOST, "no second part begins"
        operator.send(b"tick 1\n" * TICKS)
        assert receive(operator, TICKS * len(RELEASED)) == RELEASED * TICKS
        ticks += TICKS
    last = paths[0].read_text().count("\n") - 1
    assert paths[1].read_text().startswith("\n".join([
        f"rack-audit 3 line 1 from {last}", f"line running {last}", "slave 5 WaitPrm none 0 off --------",
        "set 5 11 none 0 ---", "prm 5 none", "in 5 0000 0000", "out 5 0000 0000", "diag 5 ------- -", "last 5 1 none",
        "last 5 2 none", f"{last + 1} tick 1 | none | released\n"]))
    assert_legal(server.rack, *paths, entries=ticks)
