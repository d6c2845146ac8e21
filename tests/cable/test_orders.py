"""Faults that lines of standard input order: which replies they meet, what becomes of these, and how the lines are answered.

That a reply does not come is shown by the reply to the next request, which comes in its place.
"""
import re
import time

import pytest

from rackd import frames
from support.cables import open_plain_session, take
from support.clients import exchange, open_master
from support.premises import measured, suppose, tried_again
from support.telegrams import ACCEPTED, FIRST, fresh_diagnosis, set_prm, slave_diag

# The function codes of the requests behind a first one.
SECOND, THIRD = 0x5D, 0x7D


def test_lost_reply(served, start_cable):
    """The next reply is lost. The retry is a repeat, and the line sends the same reply again."""
    server = served()
    cable = start_cable(server.ports[1].listen, "--log")
    master = open_master(cable.listen, 1)
    assert exchange(master, slave_diag(1, 5)) == fresh_diagnosis(1, 5)
    cable.waits("lose 5 1")
    master.send(slave_diag(1, 5, SECOND))
    assert cable.output.row() == "done lose 5 1"
    assert exchange(master, slave_diag(1, 6)) == fresh_diagnosis(1, 6)
    assert exchange(master, slave_diag(1, 5, SECOND)) == fresh_diagnosis(1, 5)
    first, second = server.journal.requests(slave_diag(1, 5, SECOND))
    assert first.split(" ")[-1] == "Done"
    assert second.split(" ")[-1] == "Repeat"
    assert cable.faults() == [f"master 1 reply 5: lost {fresh_diagnosis(1, 5).hex()} -> -"]


def test_cut_replies(served, start_cable):
    """A cut reply is a beginning of the reply, and nothing comes behind it."""
    cable = start_cable(served().ports[1].listen, "--log", "--seed", "3")
    master = open_plain_session(cable.listen, 1)
    for code in (FIRST, SECOND, THIRD, SECOND, THIRD):
        cable.waits("cut 5 1")
        master.sendall(slave_diag(1, 5, code))
        assert cable.output.row() == "done cut 5 1"
        found = re.fullmatch(r"master 1 reply 5: cut ([0-9a-f]+) -> ([0-9a-f]+)", cable.errors.row())
        before, after = map(bytes.fromhex, found.groups())
        assert before == fresh_diagnosis(1, 5)
        assert before.startswith(after) and len(after) < len(before)
        master.sendall(slave_diag(1, 6))
        assert take(master, len(after) + len(before)) == after + fresh_diagnosis(1, 6)


def test_cut_acknowledgement(served, start_cable):
    """Nothing is left of a short acknowledgement that is cut."""
    cable = start_cable(served().ports[1].listen, "--log")
    master = open_master(cable.listen, 1)
    cable.waits("cut 5 1")
    master.send(set_prm(1, 5, FIRST))
    assert cable.output.row() == "done cut 5 1"
    assert exchange(master, slave_diag(1, 6)) == fresh_diagnosis(1, 6)
    assert cable.faults() == ["master 1 reply 5: cut e5 -> -"]


def test_spoilt_replies(served, start_cable):
    """One octet of a spoilt reply is changed, so that it is no reply. A spoilt acknowledgement has no start delimiter."""
    cable = start_cable(served().ports[1].listen, "--log")
    master = open_plain_session(cable.listen, 1)
    cable.waits("spoil 5 2")
    master.sendall(slave_diag(1, 5))
    right = fresh_diagnosis(1, 5)
    diagnosis = take(master, len(right))
    assert sum(one != other for one, other in zip(right, diagnosis)) == 1
    assert frames.fcs(diagnosis[4:-2]) != diagnosis[-2]
    master.sendall(set_prm(1, 5, SECOND))
    acknowledgement = take(master, 1)
    assert acknowledgement[0] not in (0x10, 0x68, 0xA2, 0xDC, 0xE5)
    assert cable.output.row() == "done spoil 5 2"
    master.sendall(set_prm(1, 5, SECOND) + slave_diag(1, 6))
    assert take(master, 1 + len(right)) == ACCEPTED + fresh_diagnosis(1, 6)
    assert cable.faults() == [f"master 1 reply 5: spoilt {right.hex()} -> {diagnosis.hex()}",
                              f"master 1 reply 5: spoilt e5 -> {acknowledgement.hex()}"]


@tried_again
def test_late_reply(served, start_cable):
    """A late reply comes late, the reply of another slave doesn't overtake it, and a reply after it is not late."""
    server = served()
    cable = start_cable(server.ports[1].listen, "--log")
    master = open_plain_session(cable.listen, 1)
    cable.waits("late 5 1 300")
    start = time.monotonic()
    master.sendall(slave_diag(1, 5) + slave_diag(1, 6))
    first = take(master, 1)
    late = time.monotonic() - start
    assert first + take(master, 2 * len(fresh_diagnosis(1, 5)) - 1) == fresh_diagnosis(1, 5) + fresh_diagnosis(1, 6)
    assert late > 0.299
    assert cable.output.row() == "done late 5 1 300"
    with measured(cable.pid, server.pid) as found:
        master.sendall(slave_diag(1, 5, SECOND))
        assert take(master, len(fresh_diagnosis(1, 5))) == fresh_diagnosis(1, 5)
    assert cable.faults() == [f"master 1 reply 5: late 300 {fresh_diagnosis(1, 5).hex()} -> {fresh_diagnosis(1, 5).hex()}"]
    suppose(found.held_up < 0.1, f"a process was held up for {found.held_up:.3f} s")
    assert found.seconds < 0.3


def test_off_and_on(served, start_cable):
    """Requests to a slave that is off the bus are lost, and those to others are not."""
    server = served()
    cable = start_cable(server.ports[1].listen, "--log")
    master = open_master(cable.listen, 1)
    cable.does("off 5")
    master.send(slave_diag(1, 5))
    assert exchange(master, slave_diag(1, 6)) == fresh_diagnosis(1, 6)
    assert server.journal.requests(slave_diag(1, 5)) == []
    cable.does("on 5")
    assert exchange(master, slave_diag(1, 5)) == fresh_diagnosis(1, 5)
    assert cable.faults() == [f"master 1 request 5: lost {slave_diag(1, 5).hex()} -> -"]


def test_clear(served, start_cable):
    """After `clear` all slaves are on the bus, and no reply is lost any more."""
    cable = start_cable(served().ports[1].listen, "--log")
    master = open_master(cable.listen, 1)
    cable.does("off 6")
    cable.waits("lose 5 1000")
    cable.does("clear")
    for slave in (7, 6, 5):
        assert exchange(master, slave_diag(1, slave)) == fresh_diagnosis(1, slave)
    assert cable.faults() == []


@pytest.mark.parametrize("line", [
    "lose 5", "lose 5 0", "lose 5 1000001", "lose 127 1", "lose 05 1", "lose 5 1 1", "spoil 5", "cut 5 0", "late 5 1",
    "late 5 1 60001", "late 5 0 1", "off", "off 5 5", "off 127", "on x", "on 127", "clear 1", "play", "off  5", " off 5",
    "off 5 ", "Off 5", "off 5\r", "\xff"])
def test_line_that_is_refused(start_cable, line):
    cable = start_cable(7101)
    cable.order(line)
    assert cable.output.row() == "refused NotACommand"
    cable.does("off 5")


def test_lines_that_ask_for_nothing(start_cable):
    """An empty line and a comment have no answer."""
    cable = start_cable(7101)
    cable.order("")
    cable.order("# lose 5 1")
    cable.order("#")
    cable.does("off 5")


@pytest.mark.parametrize("line", ["off 0", "off 126", "on 0", "on 126", "clear"])
def test_line_that_is_done_at_once(start_cable, line):
    start_cable(7101).does(line)


def test_most_orders_that_wait(start_cable):
    """Up to 64 lines wait for replies. `clear` drops them, and they get no answer."""
    cable = start_cable(7101)
    for _ in range(3):
        for _ in range(64):
            cable.order("lose 9 1")
        cable.order("late 0 1000000 60000")
        assert cable.output.row() == "refused TooMany"
        cable.does("clear")


def test_orders_for_one_slave(served, start_cable):
    """Lines for one slave are used up in the order in which they came."""
    cable = start_cable(served().ports[1].listen, "--log")
    master = open_master(cable.listen, 1)
    for line in ("lose 5 1", "late 5 1 1", "cut 5 1"):
        cable.waits(line)
    master.send(slave_diag(1, 5))
    assert cable.output.row() == "done lose 5 1"
    assert exchange(master, slave_diag(1, 5)) == fresh_diagnosis(1, 5)
    assert cable.output.row() == "done late 5 1 1"
    master.send(slave_diag(1, 5, SECOND))
    assert cable.output.row() == "done cut 5 1"
    faults = [re.fullmatch(r"master 1 reply 5: (\w+) .*", row)[1] for row in cable.faults()]
    assert faults == ["lost", "late", "cut"]


def test_two_cables(served, start_cable):
    """The faults of one cable of a line do not meet the telegrams of another one."""
    port = served().ports[1].listen
    one, two = start_cable(port), start_cable(port)
    first, second = open_master(one.listen, 1), open_master(two.listen, 2)
    one.does("off 5")
    for _ in range(20):
        first.send(slave_diag(1, 5))
        assert exchange(second, slave_diag(2, 5)) == fresh_diagnosis(2, 5)
        assert exchange(first, slave_diag(1, 6)) == fresh_diagnosis(1, 6)
