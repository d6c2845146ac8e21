"""Faults by chance: which telegrams they meet, what becomes of these, and that a seed determines both.

What a seed determines is computed here from the description in docs/reference/cable.md, by a PCG32 of these tests.
"""
import re
from typing import NamedTuple

import pytest

from rackd import frames
from support.cables import open_plain_session, poll, poll_reply, rest, take
from support.clients import wait_for
from support.telegrams import slave_diag

MULTIPLIER, WORD, STATE = 6364136223846793005, 1 << 32, 1 << 64


class Draw(NamedTuple):
    """The six random words of a telegram."""

    lose: int
    spoil: int
    cut: int
    late: int
    place: int
    change: int


def draws(seed, sequence, count):
    """Returns the random words of the first telegrams of a sequence of a seed."""
    increment = 2 * sequence + 1
    state, words = ((seed + increment) * MULTIPLIER + increment) % STATE, []
    for _ in range(6 * count):
        turned, by = ((state >> 18 ^ state) >> 27) % WORD, state >> 59
        words.append((turned >> by | turned << (-by & 31)) % WORD)
        state = (state * MULTIPLIER + increment) % STATE
    return [Draw(*words[place:place + 6]) for place in range(0, 6 * count, 6)]


def comes_true(word, percent):
    return word * 100 < percent * WORD


def test_generator():
    """The first words of PCG32 with the seed 42 and the sequence 54, of its author's example (pcg32-demo)."""
    (words,) = draws(42, 54, 1)
    assert words == (0xA15C02B7, 0x7B47F409, 0xBA1D3330, 0x83D2F293, 0xBFA4784B, 0xCBED606E)


def test_spoilt_requests(served, start_cable):
    """One octet of each spoilt request is changed, so that the line drops it."""
    server = served()
    cable = start_cable(server.ports[1].listen, "--spoil", "100", "--requests", "--seed", "7", "--log")
    master = open_plain_session(cable.listen, 1)
    for number in range(40):
        master.sendall(slave_diag(1, (5, 6, 7)[number % 3]))
    assert rest(master) == b""
    changes, rows = set(), cable.errors.rows(40)
    for number, row in enumerate(rows):
        slave = (5, 6, 7)[number % 3]
        found = re.fullmatch(rf"master 1 request {slave}: spoilt ([0-9a-f]+) -> ([0-9a-f]+)", row)
        assert found, row
        before, after = map(bytes.fromhex, found.groups())
        assert before == slave_diag(1, slave) and len(after) == len(before)
        places = [place for place, octet in enumerate(before) if after[place] != octet]
        assert len(places) == 1 and 4 <= places[0] < len(before) - 1
        assert frames.fcs(after[4:-2]) != after[-2]
        changes.add((places[0], after[places[0]]))
    assert len(changes) > 20
    assert server.journal.entries() == []
    assert cable.faults() == []


def test_spoilt_request_in_the_log_of_the_line(serve, start_cable):
    server = serve('workers = 8\n[[line]]\nnumber = 1\nmasters = [1, 3]\nlisten = 0\noperator = 0\ncapacity = 65536\n'
                   '[[line.slave]]\naddress = 5\nident = 0x80A1\ncfg = "2111"\n', "--log")
    cable = start_cable(server.ports[1].listen, "--spoil", "100", "--requests")
    master = open_plain_session(cable.listen, 1)
    master.sendall(slave_diag(1, 5))
    assert rest(master) == b""
    wait_for(lambda: "dropped" in server.errors())
    assert "dropped 11 octets: BadEnd" in server.errors()


@pytest.mark.parametrize("seed", [1, 2])
def test_chance_of_thirty_percent(served, start_cable, seed):
    """Of 1,000 requests those are lost that the seed determines, about 300, and no reply is."""
    server = served()
    cable = start_cable(server.ports[1].listen, "--lose", "30", "--requests", "--seed", seed, "--log")
    master = open_plain_session(cable.listen, 1)
    slaves = [(5, 6, 7)[number % 3] for number in range(1000)]
    is_lost = [comes_true(draw.lose, 30) for draw in draws(seed, 0, 1000)]
    assert 240 < sum(is_lost) < 360
    master.sendall(b"".join(map(poll, slaves)))
    assert rest(master) == b"".join(poll_reply(slave) for slave, lost in zip(slaves, is_lost) if not lost)
    lost = [slave for slave, is_one in zip(slaves, is_lost) if is_one]
    assert cable.faults() == [f"master 1 request {slave}: lost {poll(slave).hex()} -> -" for slave in lost]
    assert [row.split(" ")[3] for row in server.journal.entries()] == [
        poll(slave).hex() for slave, is_one in zip(slaves, is_lost) if not is_one]


def reply_row(draw, reply):
    """Returns the row of the log for a reply of six octets with these random words, or None if it has no fault."""
    if comes_true(draw.lose, 10):
        return f"lost {reply.hex()} -> -"
    if comes_true(draw.spoil, 10.5):
        place = 1 + draw.place % 4
        changed = bytearray(reply)
        changed[place] = (changed[place] + 1 + draw.change % 255) % 256
        return f"spoilt {reply.hex()} -> {changed.hex()}"
    if comes_true(draw.cut, 10.25):
        return f"cut {reply.hex()} -> {reply[:1 + draw.place % 5].hex()}"
    if comes_true(draw.late, 10):
        return f"late 1 {reply.hex()} -> {reply.hex()}"
    return None


@pytest.mark.parametrize("seed", [7, 8, 2**64 - 1])
def test_seed_determines_faults(served, start_cable, seed):
    """A seed determines all faults of the replies to a master, of each of its sessions."""
    words = ["--lose", "10", "--spoil", "10.5", "--cut", "10.25", "--late", "10", "1", "--replies", "--seed", seed, "--log"]
    cable = start_cable(served().ports[1].listen, *words)
    expected = []
    for session in range(2):
        master = open_plain_session(cable.listen, 1)
        master.sendall(poll(5) * 60)
        rest(master)
        rows = [reply_row(draw, poll_reply(5)) for draw in draws(seed, 2 * session + 1, 60)]
        expected += [f"master 1 reply 5: {row}" for row in rows if row is not None]
    assert {row.split(" ")[4] for row in expected} == {"lost", "spoilt", "cut", "late"}
    assert cable.faults() == expected


def test_seed_is_zero_by_default(served, start_cable):
    cable = start_cable(served().ports[1].listen, "--lose", "50", "--requests", "--log")
    master = open_plain_session(cable.listen, 1)
    master.sendall(poll(5) * 100)
    is_lost = [comes_true(draw.lose, 50) for draw in draws(0, 0, 100)]
    assert rest(master) == poll_reply(5) * is_lost.count(False)


def test_cut_requests(served, start_cable):
    """Behind a cable that cuts requests, one with --resync has the line get each request that is whole."""
    server = served()
    near = start_cable(server.ports[1].listen, "--resync", "30", "--log")
    far = start_cable(near.listen, "--cut", "50", "--requests", "--seed", "1", "--log")
    master = open_plain_session(far.listen, 1)
    is_cut = [comes_true(draw.cut, 50) for draw in draws(1, 0, 20)]
    assert 4 < sum(is_cut) < 16
    for is_one in is_cut:
        master.sendall(poll(5))
        if is_one:
            found = re.fullmatch(rf"master 1 request 5: cut {poll(5).hex()} -> ([0-9a-f]+)", far.errors.row())
            assert poll(5).hex().startswith(found[1]) and len(found[1]) < 12
            assert near.errors.row() == f"master 1 request -: lost {found[1]} -> -"
        else:
            assert take(master, 6) == poll_reply(5)
    assert rest(master) == b""
    assert len(server.journal.requests(poll(5))) == is_cut.count(False)
    assert far.faults() == []
