"""How a rack that is served ends: after its sessions, with a full journal, and what it prints then."""
import re
import socket

import pytest

from support.clients import answer_to, connect, connect_socket, exchange, has_ended, open_master
from support.line_time import at_once
from support.printed_audits import printed_audits
from support.racks import line, rack
from support.telegrams import ACCEPTED, fresh_diagnosis, slave_diag

# Racks by the numbers of their lines in the order of the rack file, and how many connections each port takes.
ENDS = [([1], 1), ([1], 3), ([2, 1], 1), ([2, 1], 50), ([4, 3, 1, 2], 4)]


@pytest.mark.parametrize("lines, sessions", ENDS, ids=[f"lines-{len(lines)}-sessions-{sessions}" for lines, sessions in ENDS])
def test_sessions_are_counted(serve, run, tmp_path, lines, sessions):
    """Each port takes this number of connections, whatever they send. Status, note and audit texts follow the last one."""
    server = serve(rack(*(line(number, 5) for number in lines)), "--sessions", str(sessions))
    last = open_master(server.ports[lines[0]].listen, 1)
    ports = [port for number in lines for port in server.ports[number] for _ in range(sessions)]
    ports.remove(server.ports[lines[0]].listen)
    for port in ports:
        connect(port).close()
    # It serves on as long as one session is left.
    assert exchange(last, slave_diag(1, 5)) == fresh_diagnosis(1, 5)
    assert server.process.poll() is None
    last.close()
    done = server.wait()
    count = sessions * len(lines)
    assert done.status == 0
    notes = [row for row in done.errors.splitlines() if "a connection waits" not in row]
    assert notes == [f"[INFO  rackd] served {count} sessions of masters and {count} of operators"]
    journals = printed_audits(run, server.rack, done.output, tmp_path)
    assert list(journals) == sorted(lines)
    assert {number: len(entries) for number, entries in journals.items()} == {**dict.fromkeys(lines, 0), lines[0]: 1}


def half_closed(port, octets):
    """Sends octets, ends this direction of the connection, and returns all that comes until the other end closes it."""
    received = b""
    with connect_socket(port) as connection:
        connection.sendall(octets)
        connection.shutdown(socket.SHUT_WR)
        while piece := connection.recv(65536):
            received += piece
    return received


@pytest.mark.parametrize("wrapper", [[], ["/bin/sh", "-c", 'exec "$@" 2>/dev/full', "sh"]], ids=["read", "full"])
def test_full_journal(serve, run, tmp_path, wrapper):
    """The last place is for the halt: a request that comes then gets no reply. A standard error that is full changes nothing."""
    server = serve(rack(line(1, 5, masters=[1], capacity=2)), "--sessions", "1", wrapper=wrapper)
    asks, answer = slave_diag(1, 5), fresh_diagnosis(1, 5)
    assert half_closed(server.ports[1].listen, b"\x01" + asks + asks) == ACCEPTED + answer
    with server.operator() as operator:
        assert answer_to(operator, "tick 1") == "refused Halted"
        assert answer_to(operator, "show 5") == "show 5 WaitPrm none in 0000 out 0000 wd off"
    done = server.wait()
    assert done.status == 0
    assert printed_audits(run, server.rack, done.output, tmp_path) == {1: [
        f"1 req 1 {asks.hex()} | WaitPrm none | reply {answer.hex()} Done", "2 halt | none | released"]}
    notes = re.sub(r"[0-9:.]{12} ", "", done.errors)
    assert notes == ("" if wrapper else "[WARN  rackd] line 1: halted, its journal is full; '--endless' lets a line continue\n"
                     "[INFO  rackd] served 1 sessions of masters and 1 of operators\n")


# FDL status of the station that the line lacks and of slave 5, by master 2; the reply of slave 5; the entries of both.
STATUS_OF_9, STATUS_OF_5, STATUS = "100902495416", "100502495016", "100205000716"
UNANSWERED = f"req 2 {STATUS_OF_9} | none | silence NoStation"
ANSWERED = f"req 2 {STATUS_OF_5} | WaitPrm none | reply {STATUS} Status"
# Octets that connections send one after another, each up to its end; all that comes back; and the entries of the journal.
DIALOGUES = {
    "master": ([("listen", bytes.fromhex(f"02 {STATUS_OF_9} {STATUS_OF_5}"))],
               [bytes.fromhex(f"e5 {STATUS}")], [UNANSWERED, ANSWERED]),
    "operator": ([("operator", b"tick 1\nin 9 aa\nshow 5\n")],
                 [b"released\nrefused NoStation\nshow 5 WaitPrm none in 0000 out 0000 wd off\n"], ["tick 1 | none | released"]),
    "master-and-operator": ([("listen", bytes.fromhex(f"02 {STATUS_OF_5}")), ("operator", b"tick 1\n")],
                            [bytes.fromhex(f"e5 {STATUS}"), b"released\n"], [ANSWERED, "tick 1 | none | released"]),
    "two-masters-and-a-stranger": (
        [("listen", b"\x01" + slave_diag(1, 5)), ("listen", bytes.fromhex(f"02 {STATUS_OF_9} {STATUS_OF_5}")),
         ("listen", bytes.fromhex(f"09 {STATUS_OF_5}"))],
        [ACCEPTED + fresh_diagnosis(1, 5), bytes.fromhex(f"e5 {STATUS}"), b""],
        [f"req 1 {slave_diag(1, 5).hex()} | WaitPrm none | reply {fresh_diagnosis(1, 5).hex()} Done", UNANSWERED, ANSWERED]),
}


@pytest.mark.parametrize("sent, answers, entries", DIALOGUES.values(), ids=DIALOGUES)
def test_sessions_that_their_clients_end(serve, run, tmp_path, sent, answers, entries):
    """What came before the end is answered, and is in the journal; the end of a session adds nothing to it."""
    server = serve(rack(), "--until-input-ends", piped=True)
    assert [half_closed(getattr(server.ports[1], kind), octets) for kind, octets in sent] == answers
    server.end_input()
    assert printed_audits(run, server.rack, server.wait().output, tmp_path) == {
        1: [f"{place} {entry}" for place, entry in enumerate(entries, 1)]}


def test_race_for_the_last_place(serve, run, tmp_path):
    """On each of eight lines two masters ask at one moment, and one place is left before the halt: one master is answered."""
    numbers, masters = range(1, 9), (1, 2)
    text = rack(*(line(number, 5, masters=list(masters), capacity=2) for number in numbers), workers=16)
    server = serve(text, "--until-input-ends", piped=True)
    asking = [(number, master) for number in numbers for master in masters]

    def ask(who):
        number, master = who
        return half_closed(server.ports[number].listen, bytes([master]) + slave_diag(master, 5) * 10)

    received = at_once(ask, asking)
    server.end_input()
    journals = printed_audits(run, server.rack, server.wait().output, tmp_path)
    for number in numbers:
        answers = {master: octets for (own, master), octets in zip(asking, received) if own == number}
        winners = [master for master in masters if answers[master] != ACCEPTED]
        assert len(winners) == 1, answers
        asks, answer = slave_diag(winners[0], 5), fresh_diagnosis(winners[0], 5)
        assert answers[winners[0]] == ACCEPTED + answer
        assert journals[number] == [
            f"1 req {winners[0]} {asks.hex()} | WaitPrm none | reply {answer.hex()} Done", "2 halt | none | released"]


def test_sessions_that_are_open_at_the_end_of_the_input(serve, run, tmp_path):
    """They are closed by the program, and all that was answered is in the audit text."""
    server = serve(rack(line(2, 5), line(1, 5)), "--until-input-ends", piped=True)
    one, operator = open_master(server.ports[2].listen, 1), server.operator(1)
    assert exchange(one, slave_diag(1, 5)) == fresh_diagnosis(1, 5)
    assert answer_to(operator, "tick 3") == "released"
    server.end_input()
    assert has_ended(one)
    done = server.wait()
    assert done.status == 0
    assert printed_audits(run, server.rack, done.output, tmp_path) == {
        1: ["1 tick 3 | none | released"],
        2: [f"1 req 1 {slave_diag(1, 5).hex()} | WaitPrm none | reply {fresh_diagnosis(1, 5).hex()} Done"]}
