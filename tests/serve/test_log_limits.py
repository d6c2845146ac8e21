"""Rows of the log about noise: at most ten a second about one thing, and the rest is summed up."""
import re
import signal
import threading
import time

from support.clients import answer_to, connect, has_ended, receive, wait_for
from support.racks import line, rack

# How many rows about one thing are written in one second.
ROWS = 10


def rows_by_second(log, text):
    """Returns how many rows of the log of line 1 with this text each second has."""
    seconds = {}
    for second in re.findall(rf"(\d\d:\d\d:\d\d)\.\d\d\d line 1: .*{re.escape(text)}", log):
        seconds[second] = seconds.get(second, 0) + 1
    return seconds


def left_out(log, subject):
    """Returns how many rows about a subject the log says were left out."""
    return sum(map(int, re.findall(rf"line 1: (\d+) more rows about {subject}", log)))


def test_connections_that_are_refused(serve):
    server, sent = serve(rack(), "--log", "--until-input-ends", piped=True), 600
    for _ in range(sent):
        connection = connect(server.ports[1].listen)
        connection.send(b"\x7e")
        assert has_ended(connection)
        connection.close()
    server.end_input()
    log = server.wait().errors
    rows = rows_by_second(log, "master 126 refused")
    assert max(rows.values()) <= ROWS
    assert sum(rows.values()) + left_out(log, "the port of masters") == sent


def test_operators_whose_rows_are_no_commands(serve):
    """A noisy operator has its own limit: the rows about another one, and about one that comes later, are all written."""
    server, sent = serve(rack(), "--log", "--until-input-ends", piped=True), 20_000
    answers = b"fault NotACommand\n" * sent
    noisy, other, received = connect(server.ports[1].operator), server.operator(), []
    reader = threading.Thread(target=lambda: received.append(receive(noisy, len(answers))))
    reader.start()
    for turn in range(sent // 100):
        noisy.send(b"nonsense\n" * 100)
        if turn == sent // 200:
            for number in range(ROWS):
                assert answer_to(other, f"other {number}") == "fault NotACommand"
    reader.join()
    assert received == [answers]
    noisy.close()
    other.close()
    with server.operator() as later:
        assert answer_to(later, "later") == "fault NotACommand"
    server.end_input()
    log = server.wait().errors
    rows = rows_by_second(log, 'operator: no command, "nonsense"')
    assert max(rows.values()) <= ROWS
    assert sum(rows.values()) + left_out(log, "an operator") == sent
    for text in [*(f"other {number}" for number in range(ROWS)), "later"]:
        assert log.count(f'operator: no command, "{text}"') == 1


def test_one_row_about_a_delay(serve):
    """A rack that was stopped has one row about it, whatever the number of its lines, and a halted line has none.

    The row has the time that a line lost, not that of all lines together.
    """
    stops, stopped, row = 3, 1.5, r"(\d\d:\d\d:\d\d)\.\d\d\d (\d+) ms were discarded: the rack was delayed"
    begun = time.monotonic()
    server = serve(rack(*(line(number, 5) for number in range(1, 9))), "--tick", 100, "--log", "--until-input-ends", piped=True)
    for number in range(3, 9):
        assert answer_to(server.operator(number), "halt") == "released"
    for stop in range(1, stops + 1):
        server.send_signal(signal.SIGSTOP)
        time.sleep(stopped)
        server.send_signal(signal.SIGCONT)
        wait_for(lambda stop=stop: sum(int(found[1]) for found in re.findall(row, server.errors())) >= stop * 1000)
    server.end_input()
    rows = re.findall(row, server.wait().errors)
    assert sum(int(lost) for _, lost in rows) <= (time.monotonic() - begun) * 1000
    seconds = [second for second, _ in rows]
    assert len(rows) >= stops
    assert len(set(seconds)) == len(seconds), "a second has two rows about a delay"
