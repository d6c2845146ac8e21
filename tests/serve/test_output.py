"""Rows of standard error while a rack is served: which there are without `--log`, with it, and with `--log requests`."""
import re
import socket

import pytest

from support.clients import answer_to, connect, connect_socket, exchange, has_ended, open_master, receive, wait_for
from support.racks import line, rack
from support.sleeping import wait_until_asleep
from support.telegrams import ACCEPTED, fresh_diagnosis, slave_diag

# A row with the time of day (UTC), and the last row, which has none.
TIMED_ROW = re.compile(r"\[(INFO |WARN ) rackd\] (?:[01]\d|2[0-3]):[0-5]\d:[0-5]\d\.\d{3} (.*)\n")
LAST_ROW = "[INFO  rackd] served 5 sessions of masters and 5 of operators\n"
ASKS, ANSWER = slave_diag(1, 5), fresh_diagnosis(1, 5)

# The rows of `everything`, and how many of each there are.
WARNINGS = {"WARN line 1: halted, its journal is full; '--endless' lets a line continue": 1}
SESSIONS = {
    "INFO line 1: master 1 connected": 1,
    "INFO line 1: master 1 refused: AddressHeld": 1,
    "INFO line 1: master 9 refused: UnknownMaster": 1,
    "INFO line 1: no address came: EndOfInput": 2,
    "INFO line 1 master 1: dropped 1 octet: NoStart (01)": 1,
    "INFO line 1: master 1 ended: EndOfInput, 2 requests, 1 refused": 1,
    "INFO line 1: operator connected": 5,
    "INFO line 1: operator ended: EndOfInput": 5,
}
REQUESTS = {
    f"INFO line 1: req 1 {ASKS.hex()} -> reply {ANSWER.hex()} Done": 1,
    f"INFO line 1: req 1 {ASKS.hex()} -> silence Halted": 1,
    "INFO line 1: tick 1 -> released": 1,
    "INFO line 1: tick 2 -> released": 1,
    "INFO line 1: tick 3 -> refused Halted": 1,
    "INFO line 1: tick 4 -> refused Halted": 1,
}
LOGS = {
    "without": ([], WARNINGS),
    "log": (["--log"], {**WARNINGS, **SESSIONS}),
    "sessions": (["--log", "sessions"], {**WARNINGS, **SESSIONS}),
    "requests": (["--log", "requests"], {**WARNINGS, **SESSIONS, **REQUESTS}),
}


def counted(errors):
    """Returns how often each row comes, without its time. Rows have to be of the log, each with the time of day."""
    rows = {}
    for text in errors.splitlines(keepends=True):
        match = TIMED_ROW.fullmatch(text)
        assert match, text
        row = f"{match[1].strip()} {match[2]}"
        rows[row] = rows.get(row, 0) + 1
    return rows


def everything(server):
    """A master, an address that is held and one of no master, connections without an address, and a journal that is full."""
    listen, operated = server.ports[1]
    one = connect_socket(listen)
    one.sendall(b"\x01" + ASKS)
    wanted, received = ACCEPTED + ANSWER, b""
    while len(received) < len(wanted):
        received += one.recv(len(wanted) - len(received))
    assert received == wanted
    for address in (1, 9):
        refused = connect(listen)
        refused.send(bytes([address]))
        assert receive(refused, 1) == b""
    for _ in range(2):
        connect(listen).close()
    operator = server.operator()
    for units, answer in [(1, "released"), (2, "released"), (3, "refused Halted"), (4, "refused Halted")]:
        assert answer_to(operator, f"tick {units}") == answer
    one.sendall(b"\x01" + ASKS)
    one.shutdown(socket.SHUT_WR)
    assert one.recv(1) == b"", "a halted line has replied"
    one.close()
    for _ in range(3):
        connect(operated).close()
    operator.close()


@pytest.mark.parametrize("words, rows", LOGS.values(), ids=LOGS)
def test_rows(serve, words, rows):
    """These rows come, each with its number, and no others."""
    server = serve(rack(line(1, 5, masters=[1, 2], capacity=4)), "--sessions", "5", *words)
    everything(server)
    last = server.operator()
    # The thread that writes rows has a second after the end, so all but the last ones are waited for.
    wait_for(lambda: len(server.errors().splitlines()) >= sum(rows.values()) - ("--log" in words))
    last.close()
    done = server.wait()
    assert done.status == 0
    assert done.errors.endswith(LAST_ROW)
    assert counted(done.errors.removesuffix(LAST_ROW)) == rows


@pytest.mark.parametrize("words", [[], ["--log"]], ids=["without", "log"])
def test_busy_workers_are_reported_once(serve, words):
    """One row about the first connection that waits, and no more until a worker has been free."""
    server = serve(rack(line(1, 5, masters=list(range(1, 5))), workers=2), "--until-input-ends", *words, piped=True)
    busy = "line 1: a connection waits, all 2 workers are busy"
    sessions = [open_master(server.ports[1].listen, address) for address in (1, 2)]
    assert busy not in server.errors()
    waiting = [connect(server.ports[1].listen) for _ in range(3)]
    wait_for(lambda: busy in server.errors())
    sessions.pop().close()
    waiting[0].send(b"\x03" + slave_diag(3, 5))
    assert receive(waiting[0], 18) == ACCEPTED + fresh_diagnosis(3, 5)
    assert exchange(sessions[0], ASKS) == ANSWER
    assert server.errors().count(busy) == 1
    for connection in [*sessions, *waiting]:
        connection.close()
    wait_until_asleep(server.pid)
    waiting = [connect(server.ports[1].listen) for _ in range(4)]
    wait_for(lambda: server.errors().count(busy) > 1)
    server.end_input()
    assert all(has_ended(connection) for connection in waiting)
    assert server.wait().errors.count(busy) == 2
