"""What a cable stores is bounded: answers and reports that nobody reads, late telegrams, and lines that never end.

docs/reference/cable.md has the numbers: 256 places for answers, 1,024 rows of the log, 4,096 late telegrams. The room of
the pipes is known too, so the tests count what the cable takes. It takes no more once it sleeps while something is left to
be read.
"""
import re
import threading

import pytest

from rackd import frames
from support.cables import open_plain_session, poll, rest, take
from support.clients import connect_socket, exchange, open_master
from support.played_ports import PlayedPort
from support.processes import PATIENCE
from support.sleeping import left_in_pipe, limit_pipe, unread_of
from support.telegrams import ACCEPTED, FIRST, fresh_diagnosis, slave_diag

# The places for answers, the rows of the log and the late telegrams that wait at the most.
PLACES, ROWS, LATE = 256, 1024, 4096
# The octets by which memory may grow.
MOST_GROWTH = 10_000_000
# A line that is done at once and changes nothing, and its answer.
LINE, ANSWER = "on 126", b"done on 126\n"


def lines_read(cable, room):
    """Writes lines whose answers nobody reads, one at a time, until the cable leaves one in the pipe. Returns how many it read
    beyond those whose answers fit into the pipe of standard output, which has this room."""
    count, is_read = 0, True
    most = room // len(ANSWER) + PLACES + 50
    while is_read and count < most:
        cable.order(LINE)
        cable.wait_until_asleep()
        is_read = left_in_pipe(cable.process.stdin) == 0
        count += is_read
    written = count + (not is_read)
    assert cable.output.take(written * len(ANSWER)) == ANSWER * written
    return count - room // len(ANSWER)


def no_order(cable, master):
    pass


def one_order_waits(cable, master):
    cable.waits("lose 9 1")


def most_orders_wait(cable, master):
    for _ in range(64):
        cable.waits("lose 9 1")
    cable.order("lose 9 1")
    assert cable.output.row() == "refused TooMany"


def orders_are_answered(cable, master):
    for turn in range(PLACES + 44):
        cable.waits("lose 5 1")
        master.send(slave_diag(1, 5, FIRST if turn == 0 else (0x5D, 0x7D)[turn % 2]))
        assert cable.output.row() == "done lose 5 1"


def orders_are_cleared(cable, master):
    for _ in range(5):
        most_orders_wait(cable, master)
        cable.does("clear")


def one_is_left_of_two(cable, master):
    cable.waits("lose 9 1")
    cable.waits("lose 5 1")
    master.send(slave_diag(1, 5))
    assert cable.output.row() == "done lose 5 1"


def lines_ask_for_nothing(cable, master):
    cable.write(b"# lose 5 1\n\n" * PLACES)
    cable.does(LINE)


def lines_are_refused(cable, master):
    for _ in range(PLACES + 44):
        cable.order("nonsense")
        assert cable.output.row() == "refused NotACommand"


BEFORE = {
    no_order: 0, one_order_waits: 1, most_orders_wait: 64, orders_are_answered: 0, orders_are_cleared: 0, one_is_left_of_two: 1,
    lines_ask_for_nothing: 0, lines_are_refused: 0}


@pytest.mark.parametrize("before, taken", BEFORE.items(), ids=[before.__name__ for before in BEFORE])
def test_places_for_answers(served, start_cable, before, taken):
    """A line takes a place until its answer is written, also one that waits for replies. `clear` gives places back."""
    cable = start_cable(served().ports[1].listen)
    room = limit_pipe(cable.process.stdout)
    master = open_master(cable.listen, 1)
    before(cable, master)
    assert lines_read(cable, room) == PLACES - taken
    assert exchange(master, slave_diag(1, 6)) == fresh_diagnosis(1, 6)


def test_answers_are_not_read(start_cable):
    """Lines are read only as fast as their answers are: none is lost, and memory stays."""
    lines = [f"{word} {number % 127}" for number in range(30_000) for word in ("off", "nonsense")]
    text = "".join(f"{line}\n" for line in lines).encode()
    answers = b"".join(f"done {line}\n".encode() if line[0] == "o" else b"refused NotACommand\n" for line in lines)
    cable = start_cable(7101)
    before = cable.peak_memory()
    sent = cable.write_what_is_taken(text)
    writing = threading.Thread(target=cable.write, args=[text[sent:]], daemon=True)
    writing.start()
    assert cable.output.take(len(answers)) == answers
    writing.join(PATIENCE)
    cable.wait_until_asleep()
    assert cable.has_read_input() and cable.output.so_far() == ""
    assert cable.peak_memory() - before < MOST_GROWTH


def test_reports_are_not_read(served, start_cable):
    """Rows of the log hold up no telegram: those that find no room are counted, and memory stays."""
    sent = 40_000
    cable = start_cable(served().ports[1].listen, "--log", "--lose", "100", "--requests")
    before, room = cable.peak_memory(), limit_pipe(cable.process.stderr)
    # Standard output is full, and so are the places of answers.
    cable.write_what_is_taken(b"off 9\n" * 60_000)
    master = open_plain_session(cable.listen, 1)
    master.sendall(slave_diag(1, 5) * sent)
    assert rest(master) == b""
    cable.wait_until_asleep()
    assert cable.peak_memory() - before < MOST_GROWTH
    row, rows, lost = f"master 1 request 5: lost {slave_diag(1, 5).hex()} -> -", 0, 0
    while rows + lost < sent:
        text = cable.errors.row()
        found = re.fullmatch(r"\[WARN rackd\] (\d+) rows lost", text)
        assert found or text == row
        rows, lost = (rows, lost + int(found[1])) if found else (rows + 1, lost)
    assert rows + lost == sent
    # Those in the queue, those in the pipe, and one that is being written.
    assert ROWS <= rows <= ROWS + room // (len(row) + 1) + 1
    assert cable.errors.so_far() == ""


def accepted(cable, line):
    """Returns the connection of a master through a cable to a line that a test plays."""
    master = connect_socket(cable.listen)
    master.sendall(b"\x01")
    line.accept()
    assert line.take(1) == b"\x01"
    line.send(ACCEPTED)
    assert take(master, 1) == ACCEPTED
    return master


@pytest.mark.parametrize("direction, words", [
    pytest.param("replies", ["--delay", "60000"], id="delay"),
    pytest.param("replies", ["--late", "100", "60000", "--replies"], id="late replies"),
    pytest.param("requests", ["--late", "100", "60000", "--requests"], id="late requests")])
def test_late_telegrams_are_bounded(start_cable, direction, words):
    """While 4,096 telegrams of one direction are late, and one before them waits for its time, no further ones are read."""
    with PlayedPort() as line:
        cable = start_cable(line.number, *words)
        master = accepted(cable, line)
        before, telegrams = cable.peak_memory(), poll(5) * (2 * LATE)
        unread = unread_of(line.connection if direction == "replies" else master, telegrams, cable.pid)
        # One telegram is left in the hand of the reader, and behind it what was read with it.
        assert LATE * len(poll(5)) <= len(telegrams) - unread <= (LATE + 2) * len(poll(5)) + 512
        assert cable.peak_memory() - before < MOST_GROWTH


def test_late_telegrams_are_not_lost(start_cable):
    """Of very many late telegrams none is lost, and they come in their order."""
    telegrams = b"".join(frames.request(1, 5, 8, number.to_bytes(3, "big")) for number in range(3 * LATE))
    with PlayedPort() as line:
        cable = start_cable(line.number, "--delay", "200")
        master = accepted(cable, line)
        sending = threading.Thread(target=line.send, args=[telegrams], daemon=True)
        sending.start()
        assert take(master, len(telegrams)) == telegrams
        sending.join(PATIENCE)


def test_lines_without_end(start_cable):
    """A line that never ends takes no memory. Behind it the next one is read."""
    cable, endless = start_cable(7101), b"x" * 64_000_000
    before = cable.peak_memory()
    writing = threading.Thread(target=cable.write, args=[endless + b"\noff 5\n# " + endless + b"\non 5\n"], daemon=True)
    writing.start()
    answers = b"refused NotACommand\ndone off 5\ndone on 5\n"
    assert cable.output.take(len(answers)) == answers
    writing.join(PATIENCE)
    assert cable.output.so_far() == ""
    assert cable.peak_memory() - before < MOST_GROWTH


def test_longest_lines(start_cable):
    """The longest line that asks for something is done, and of a longer one only the beginning is stored, 64 octets."""
    cable = start_cable(7101)
    cable.waits("late 126 1000000 60000")
    for spaces in (57, 58, 59, 60):
        cable.order("off 5" + " " * spaces)
        assert cable.output.row() == "refused NotACommand"
    cable.does("clear")


def test_answer_to_an_order_while_answers_wait(served, start_cable):
    """An order is answered also if its reply comes while no place is left, and the reply doesn't wait for that."""
    count = 20_000
    cable = start_cable(served().ports[1].listen)
    limit_pipe(cable.process.stdout)
    master = open_master(cable.listen, 1)
    cable.waits("lose 5 1")
    text = f"{LINE}\n".encode() * count
    sent = cable.write_what_is_taken(text)
    master.send(slave_diag(1, 5))
    assert exchange(master, slave_diag(1, 6)) == fresh_diagnosis(1, 6)
    writing = threading.Thread(target=cable.write, args=[text[sent:]], daemon=True)
    writing.start()
    rows = cable.output.rows(count + 1)
    assert rows.index("done lose 5 1") < count
    assert rows.count(f"done {LINE}") == count
