"""Sessions from their first octet to their end: what they answer, how they end, and what the journal has of them."""
import re
import socket

import pytest

from support.clients import answer_to, connect_socket, exchange, open_master, receive, wait_for
from support.printed_audits import printed_audits
from support.racks import line, rack, slave
from support.sleeping import left_at_receiver, unread_of, wait_until_asleep
from support.telegrams import ACCEPTED, fresh_diagnosis, slave_diag, token
from support.watched_sockets import WatchedSockets

LOGGED = "--log", "--until-input-ends"
# A Slave_Diag of master 1 to slave 5, and the reply of a slave that waits for parameters.
DIAG_1, REPLY_1 = slave_diag(1, 5).hex(), fresh_diagnosis(1, 5).hex()
DIAG_ENTRY = f"1 req 1 {DIAG_1} | WaitPrm none | reply {REPLY_1} Done"
# FDL status requests of master 2 to slave 5, which replies, and to address 9, where no slave is.
STATUS_5, REPLY_5, STATUS_9 = "100502495016", "100205000716", "100902495416"
# What masters send in sessions one after another; all that they get; and what the log says of the end.
MASTERS = [
    ("01" + DIAG_1, "e5" + REPLY_1, "master 1 ended: EndOfInput, 1 requests, 0 refused"),
    ("07", "", "master 7 refused: UnknownMaster"),
    ("0233" + STATUS_9 + STATUS_5, "e5" + REPLY_5, "master 2 ended: EndOfInput, 2 requests, 0 refused"),
    ("02" + STATUS_5 + slave_diag(2, 5).hex(), "e5" + REPLY_5 + fresh_diagnosis(2, 5).hex(),
     "master 2 ended: EndOfInput, 2 requests, 0 refused"),
    ("", "", "no address came: EndOfInput"),
    ("016805056885", "e5", "master 1 ended: EndOfInput, 0 requests, 0 refused"),
    ("01", "e5", "master 1 ended: EndOfInput, 0 requests, 0 refused"),
]
# The entries that these sessions leave.
ENTRIES = [
    DIAG_ENTRY,
    f"2 req 2 {STATUS_9} | none | silence NoStation",
    f"3 req 2 {STATUS_5} | WaitPrm none | reply {REPLY_5} Status",
    f"4 req 2 {STATUS_5} | WaitPrm none | reply {REPLY_5} Status",
    f"5 req 2 {slave_diag(2, 5).hex()} | WaitPrm none | reply {fresh_diagnosis(2, 5).hex()} Done",
]


def ends_in(log):
    """Returns what a log says of the ends of sessions, in order, and of connections that began none."""
    return re.findall(r"line 1: ((?:master|operator)(?: \d+)? (?:ended|refused): .*|operator ended: .*|no address came: .*)", log)


def rest_of(client):
    """Returns what a client gets until the program ends the connection."""
    got = b"".join(iter(lambda: client.recv(65536), b""))
    client.close()
    return got


def all_answers(client):
    """Ends what a client sends, and returns all that it gets until its connection ends."""
    client.shutdown(socket.SHUT_WR)
    return rest_of(client)


def journal_of(server, run, folder):
    """Ends a server by its input, and returns the entries of line 1."""
    server.end_input()
    return printed_audits(run, server.rack, server.wait().output, folder)[1]


def test_serve_answers(serve, run, tmp_path):
    """Each frame is exchanged once, in order. After each end the address is free, and what is left of a frame is nothing."""
    server = serve(rack(), *LOGGED, piped=True)
    for count, (octets, answers, _) in enumerate(MASTERS, 1):
        client = connect_socket(server.ports[1].listen)
        client.sendall(bytes.fromhex(octets))
        assert all_answers(client).hex() == answers
        wait_for(lambda count=count: len(ends_in(server.errors())) == count)
    assert journal_of(server, run, tmp_path) == ENTRIES
    assert ends_in(server.errors()) == [end for _, _, end in MASTERS]


def test_octets_one_at_a_time(serve, run, tmp_path):
    """Octets that are each read alone are answered as those that come at once."""
    server = serve(rack(), *LOGGED, piped=True)
    client = connect_socket(server.ports[1].listen)
    for octet in bytes.fromhex("0233" + STATUS_9 + STATUS_5):
        client.sendall(bytes([octet]))
        wait_for(lambda: left_at_receiver(client) == 0, every=0.0005)
    assert all_answers(client).hex() == "e5" + REPLY_5
    assert journal_of(server, run, tmp_path) == [
        f"1 req 2 {STATUS_9} | none | silence NoStation",
        f"2 req 2 {STATUS_5} | WaitPrm none | reply {REPLY_5} Status",
    ]


def test_each_reply_before_the_next_request(serve):
    """A master gets its acceptance and each reply before it sends more, and nothing behind the last one."""
    server = serve(rack())
    client = connect_socket(server.ports[1].listen)
    for octets, answer in ((b"\x01", ACCEPTED), *[(slave_diag(1, 5), fresh_diagnosis(1, 5))] * 2):
        client.sendall(octets)
        assert client.recv(len(answer), socket.MSG_WAITALL) == answer
    assert all_answers(client) == b""


# What an operator sends to a line whose slave 5 has this device; all answers; and the entries.
OPERATORS = {
    "event-fault-and-look": ("still", b"tick 1\nnonsense\nowned 1\n", "released\nfault NotACommand\nowned\n",
                             ["1 tick 1 | none | released"]),
    "slaves-are-shown": ("still", b"show 5\nshow 6\n\n# show 5\nin 5 AA55\nshow 5\n",
                         "show 5 WaitPrm none in 0000 out 0000 wd off\nrefused NoStation\ndone\n"
                         "show 5 WaitPrm none in aa55 out 0000 wd off\n",
                         ["1 in 5 aa55 | WaitPrm none | done"]),
    "devices-step": ("counter", b"step\nin 5 00FF\nstep\nshow 5\n",
                     "stepped 1\ndone\nstepped 1\nshow 5 WaitPrm none in 0100 out 0000 wd off\n",
                     ["1 in 5 0001 | WaitPrm none | done", "2 in 5 00ff | WaitPrm none | done",
                      "3 in 5 0100 | WaitPrm none | done"]),
    "still-devices-do-not-step": ("still", b"step\n", "stepped 0\n", []),
    "halted": ("counter", b"halt\nstep\ntick 1\n", "released\nstepped 0\nrefused Halted\n", ["1 halt | none | released"]),
    "one-octet-too-long": ("still", b"#" * 1025 + b"\nowned 2\n", "fault TooLong\nowned\n", []),
    "longest-row": ("still", b"#" * 1024 + b"\n", "", []),
    "far-too-long": ("still", b"#" * 5000 + b"\n", "fault TooLong\n", []),
    "last-row-without-an-end": ("still", b"owned 1\ntick 1", "owned\n", []),
    "no-text": ("still", b"\xff\n#\xff\nhalt\r\n", "fault NotACommand\n" * 3, []),
}


@pytest.mark.parametrize("device, rows, answers, entries", OPERATORS.values(), ids=OPERATORS)
def test_operator(serve, run, tmp_path, device, rows, answers, entries):
    """An operator that ends what it sends gets the answers to all its rows, and its session ends with its input."""
    server = serve(rack(line(1, slave(5, device=device))), *LOGGED, piped=True)
    client = connect_socket(server.ports[1].operator)
    client.sendall(rows)
    assert all_answers(client).decode() == answers
    assert journal_of(server, run, tmp_path) == entries
    assert ends_in(server.errors()) == ["operator ended: EndOfInput"]


def serve_watched(serve):
    """Returns a server, and the watch that it is served with."""
    watch = WatchedSockets()
    return serve(rack(), *LOGGED, piped=True, before=watch.ask), watch


def test_read_of_a_master_fails(serve, run, tmp_path):
    """A read that fails within a frame ends the session, the frame is nothing, and the address is free again."""
    server, watch = serve_watched(serve)
    client = connect_socket(server.ports[1].listen)
    client.sendall(bytes.fromhex("016805056885"))
    assert client.recv(1) == ACCEPTED
    wait_for(lambda: left_at_receiver(client) == 0)
    watch.fail_next_read()
    assert rest_of(client) == b""
    assert exchange(open_master(server.ports[1].listen, 1), slave_diag(1, 5)) == fresh_diagnosis(1, 5)
    assert journal_of(server, run, tmp_path) == [DIAG_ENTRY]
    assert ends_in(server.errors())[0] == "master 1 ended: ReadFault, 0 requests, 0 refused"


def test_read_of_an_address_fails(serve, run, tmp_path):
    """If no octet could be read, no session begins."""
    server, watch = serve_watched(serve)
    watch.fail_next_read()
    assert rest_of(connect_socket(server.ports[1].listen)) == b""
    assert open_master(server.ports[1].listen, 1)
    assert journal_of(server, run, tmp_path) == []
    assert ends_in(server.errors())[0] == "no address came: ReadFault"


# How many writes go on before one fails, and how many octets were taken before; all that the master gets; what the log says of the
# end; and the entries.
FAILED_WRITES = {
    "the-acceptance": (0, 0, b"", "master 1 ended: WriteFault, 0 requests, 0 refused", []),
    "a-reply": (1, 0, ACCEPTED, "master 1 ended: WriteFault, 1 requests, 0 refused", [DIAG_ENTRY]),
    "within-a-reply": (1, 3, ACCEPTED, "master 1 ended: WriteFault, 1 requests, 0 refused", [DIAG_ENTRY]),
}


@pytest.mark.parametrize("behind, taken, got, end, entries", FAILED_WRITES.values(), ids=FAILED_WRITES)
def test_write_to_a_master_fails(serve, run, tmp_path, behind, taken, got, end, entries):
    """The session ends, an event whose reply failed is recorded, and the address is free again."""
    server, watch = serve_watched(serve)
    watch.fail_write(behind, taken)
    client = connect_socket(server.ports[1].listen)
    client.sendall(bytes.fromhex("01" + DIAG_1))
    assert rest_of(client) == got
    open_master(server.ports[1].listen, 1).close()
    wait_for(lambda: len(ends_in(server.errors())) == 2)
    assert journal_of(server, run, tmp_path) == entries
    assert ends_in(server.errors()) == [end, "master 1 ended: EndOfInput, 0 requests, 0 refused"]


def test_read_of_an_operator_fails(serve, run, tmp_path):
    """A row without its end does nothing."""
    server, watch = serve_watched(serve)
    client = connect_socket(server.ports[1].operator)
    client.sendall(b"owned 1\nti")
    assert client.recv(6) == b"owned\n"
    watch.fail_next_read()
    assert rest_of(client) == b""
    assert journal_of(server, run, tmp_path) == []
    assert ends_in(server.errors()) == ["operator ended: ReadFault"]


# How many writes go on before one fails, how many octets were taken before, what an operator sends, and all that it gets.
FAILED_ANSWERS = {
    "first": (0, 0, b"tick 1\ntick 1\n", b""),
    "second": (1, 0, b"owned 1\ntick 1\ntick 1\n", b"owned\n"),
    "within-the-second": (1, 2, b"owned 1\ntick 1\ntick 1\n", b"owned\n"),
}


@pytest.mark.parametrize("behind, taken, rows, got", FAILED_ANSWERS.values(), ids=FAILED_ANSWERS)
def test_write_to_an_operator_fails(serve, run, tmp_path, behind, taken, rows, got):
    """The event whose answer failed is recorded, and no row behind it is carried out."""
    server, watch = serve_watched(serve)
    watch.fail_write(behind, taken)
    client = connect_socket(server.ports[1].operator)
    client.sendall(rows)
    assert rest_of(client) == got
    assert journal_of(server, run, tmp_path) == ["1 tick 1 | none | released"]
    assert ends_in(server.errors()) == ["operator ended: WriteFault"]


@pytest.mark.parametrize("number, master", [(1, 2), (2, 1)], ids=["of-the-same-line", "of-another-line"])
def test_pool_overlaps(serve, number, master):
    """While the reply of one session is held up, another session is accepted and answered."""
    watch = WatchedSockets()
    server = serve(rack(line(1, 5), line(2, 5), workers=2), before=watch.ask)
    first = open_master(server.ports[1].listen, 1)
    watch.hold_next_write()
    first.send(slave_diag(1, 5))
    wait_for(watch.is_held.is_set)
    other = open_master(server.ports[number].listen, master)
    assert exchange(other, slave_diag(master, 5)) == fresh_diagnosis(master, 5)
    assert first.receive_or_end(0) == b""
    watch.released.set()
    assert receive(first, 17) == fresh_diagnosis(1, 5)


def test_sessions_are_counted_by_line_and_master(serve):
    """The log counts the requests of each session, also of masters with the same address at two lines."""
    server = serve(rack(line(3, 5), line(7, 5)), *LOGGED, piped=True)
    one, other = (connect_socket(server.ports[number].listen) for number in (3, 7))
    for client in (one, other):
        client.sendall(b"\x01")
        assert client.recv(1) == ACCEPTED
    assert unread_of(one, token(1) + slave_diag(1, 9), server.pid) == 0
    assert all_answers(other) == b""
    wait_for(lambda: "line 7: master 1 ended" in server.errors())
    server.end_input()
    assert re.findall(r"(line [37]: .*)", server.wait().errors) == [
        "line 3: master 1 connected", "line 7: master 1 connected",
        "line 7: master 1 ended: EndOfInput, 0 requests, 0 refused",
        "line 3: master 1 ended: ReadFault, 2 requests, 1 refused"]


def test_waiting_connection_names_its_line(serve):
    """The row about a connection that waits names its line, and so does the one about its end without an address."""
    server = serve(rack(line(3, 5), line(7, 5), workers=1), *LOGGED, piped=True)
    first, waiting = open_master(server.ports[3].listen, 1), connect_socket(server.ports[7].listen)
    wait_for(lambda: "a connection waits" in server.errors())
    first.close()
    wait_for(lambda: "master 1 ended" in server.errors())
    wait_until_asleep(server.pid)
    server.end_input()
    log = server.wait().errors
    waiting.close()
    assert re.findall(r"(line [37]: (?:a connection|no address).*)", log) == [
        "line 7: a connection waits, all 1 workers are busy", "line 7: no address came: ReadFault"]


def test_full_journal_is_reported_once(serve):
    """A halt by a full journal is reported at the first event that finds no place, and by no later one."""
    server = serve(rack(line(3, 5, capacity=2)), "--until-input-ends", piped=True)
    master, operator = connect_socket(server.ports[3].listen), server.operator(3)
    master.sendall(b"\x01")
    assert master.recv(1) == ACCEPTED
    assert answer_to(operator, "tick 1") == "released"
    assert unread_of(master, bytes.fromhex("100501494f16"), server.pid) == 0
    assert answer_to(operator, "halt") == "refused Halted"
    assert unread_of(master, bytes.fromhex("100501494f16"), server.pid) == 0
    server.end_input()
    assert re.findall(r"(line 3: .*)", server.wait().errors) == ["line 3: halted, its journal is full; '--endless' lets a line continue"]
