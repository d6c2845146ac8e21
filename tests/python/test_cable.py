"""Cables with faults. Their rows are those of docs/reference/cable.md."""
import re
import time

import pytest

from rackd import BadEnd, Cable, NoReply, NotACommand, RackError, RackFault, TooMany

from support.clients import wait_for
from support.package_runs import CFG, IDENT
from support.premises import measured, suppose, tried_again
from support.processes import PATIENCE

# Seconds that a master waits for a reply that does not come.
SILENCE = 0.1
# How many milliseconds a late reply is late, and how many seconds a master may be held up before it waits for it.
LATE, HELD_UP = 600, 0.3
# An FDL status of slave 5 by master 1, of README.md.
STATUS = bytes.fromhex("100501494f16")


@pytest.fixture
def master(line, master_of):
    """Master 1 behind a cable without faults by chance, in data exchange with slaves 5 and 6."""
    return bring_up(master_of(line, 1, cable=Cable()))


def bring_up(master):
    for slave in (5, 6):
        master.bring_up(slave, IDENT, CFG)
    return master


def misses_reply(master, call):
    """Returns whether a call gets no reply within `SILENCE`. What it supposes is that the master is not held up meanwhile."""
    master.retries, master.timeout = 0, SILENCE
    with measured() as time_of:
        try:
            call()
            missed = False
        except NoReply:
            missed = True
    suppose(missed or time_of.held_up < HELD_UP, f"this process was held up for {time_of.held_up:.1f} s")
    master.timeout = PATIENCE
    return missed


def test_retry_after_a_lost_reply_is_a_repeat(master, line, wait_in_turn):
    master.cable.lose(5)
    wait_in_turn(SILENCE, PATIENCE)
    assert master.data_exchange(5, b"\x12\x34") == b"\0\0"
    master.cable.wait_done()
    first, second = line.journal()[-2:]
    assert (first.octets, first.rule) == (second.octets, "Done")
    assert (second.rule, line.operator().show(5).outputs) == ("Repeat", b"\x12\x34")
    # the inputs of slave 5 for master 1: 01 + 05 + 08 = 0e
    assert master.cable.log() == ["master 1 reply 5: lost 6805056801050800000e16 -> -"]


def test_slave_that_is_off_for_some_rounds(master, line):
    entries, rounds = len(line.journal()), 3
    master.retries = 0
    master.cable.off(5)
    for _ in range(rounds):
        master.timeout = SILENCE
        with pytest.raises(NoReply):
            master.data_exchange(5, b"\0\0")
        master.timeout = PATIENCE
        assert master.data_exchange(6, b"\0\0") == b"\0\0"
    master.cable.on(5)
    assert master.data_exchange(5, b"\xaa\x55") == b"\0\0"
    assert [entry.address for entry in line.journal()[entries:]] == [6] * rounds + [5]
    assert [row.partition(":")[0] for row in master.cable.log()] == ["master 1 request 5"] * rounds


@tried_again
def test_late_reply_is_not_taken_for_the_next_ones(rack_factory, rack_toml, master_of):
    master = bring_up(master_of(rack_factory(rack_toml).line(1), cable=Cable()))
    master.cable.late(5, 1, LATE)
    begun = time.monotonic()
    assert misses_reply(master, lambda: master.slave_diag(5))
    assert master.get_cfg(5) == CFG
    # nothing overtakes the late reply, so it has come before
    assert time.monotonic() - begun >= LATE / 1000
    row, = master.cable.log()
    assert re.fullmatch(rf"master 1 reply 5: late {LATE} 68([0-9a-f]+) -> 68\1", row)


@tried_again
def test_late_acknowledgement_is_not_taken_for_a_diagnosis(rack_factory, rack_toml, master_of):
    master = bring_up(master_of(rack_factory(rack_toml).line(1), cable=Cable()))
    master.cable.late(5, 1, LATE)
    assert misses_reply(master, lambda: master.set_prm(5, IDENT))
    assert master.slave_diag(5).holder == 1
    assert master.cable.log() == [f"master 1 reply 5: late {LATE} e5 -> e5"]


def test_spoilt_and_cut_replies(master, line, wait_in_turn):
    for fault in master.cable.spoil, master.cable.cut:
        fault(5)
    with pytest.raises(BadEnd):
        master.raw(STATUS)
    master.timeout = SILENCE
    assert master.raw(STATUS) == b""
    for fault in master.cable.spoil, master.cable.cut:
        fault(5)
    master.retries = 2
    wait_in_turn(PATIENCE, SILENCE, PATIENCE)
    assert master.data_exchange(5, b"\x12\x34") == b"\0\0"
    master.cable.wait_done()
    assert [entry.rule for entry in line.journal()[-3:]] == ["Done", "Repeat", "Repeat"]
    assert [row.split(" ")[4] for row in master.cable.log()] == ["spoilt", "cut"] * 2


def test_clear(master):
    for slave in (5, 126):
        master.cable.off(slave)
    master.cable.lose(6, 9)
    with pytest.raises(NoReply, match="lose 6 9"):
        master.cable.wait_done(SILENCE)
    master.timeout = SILENCE
    assert not master.fdl_status(126)
    assert [row.partition(":")[0] for row in master.cable.log()] == ["master 1 request 126"]
    master.cable.clear()
    master.cable.wait_done(0)
    master.timeout = PATIENCE
    for slave in (5, 6):
        assert master.fdl_status(slave)
    assert len(master.cable.log()) == 1


def test_same_seed_same_log(line, master_of):
    def faults(seed):
        """Returns the first twenty faults of requests that are always the same."""
        cable = Cable(lose=10, spoil=10.5, cut=10, late=(10, 1), requests=True, seed=seed)
        master = master_of(line, 1, cable=cable)
        master.timeout = 0
        for _ in range(200):
            master.raw(STATUS)
        wait_for(lambda: len(master.cable.log()) >= 20)
        master.close()
        return master.cable.log()[:20]

    first, second, other = (faults(seed) for seed in (7, 7, 8))
    assert first == second
    assert first != other
    assert {row.split(" ")[4] for row in first} == {"lost", "spoilt", "cut", "late"}


@pytest.mark.parametrize("options, words", [
    pytest.param(Cable(), ["--lose=0", "--spoil=0", "--cut=0", "--delay=0", "--seed=0"], id="none"),
    pytest.param(Cable(1.5, 2, 3, (10, 300), 4, replies=True, seed=7, resync=5, drop_tokens=True),
                 ["--lose=1.5", "--spoil=2", "--cut=3", "--late", "10", "300", "--delay=4", "--replies", "--seed=7", "--resync=5",
                  "--drop-tokens"], id="all"),
])
def test_options(line, options, words):
    assert options.words() == words
    assert line.cable(options).fault() is None


def test_orders_that_are_refused(line):
    cable = line.cable(Cable())
    for call in (lambda: cable.off(127), lambda: cable.lose(5, 0), lambda: cable.late(5, 1, 60001)):
        with pytest.raises(NotACommand):
            call()
    cable.wait_done(0)
    for _ in range(64):
        cable.cut(5)
    with pytest.raises(TooMany):
        cable.cut(5)
    cable.clear()
    cable.cut(5)


@pytest.mark.parametrize("options, value", [(Cable(lose=101), "101"), (Cable(spoil=-1), "-1"), (Cable(seed=-7), "-7")])
def test_options_that_are_refused(line, options, value):
    with pytest.raises(RackFault, match=f"the cable ended with status 2\nerror: invalid value '{value}'"):
        line.cable(options)
    assert line.cables == []


def test_master_that_is_open(line):
    master = line.master(1, cable=Cable())
    assert line.master(1) is master
    with pytest.raises(RackError, match="master 1 is open already"):
        line.master(1, cable=Cable())
    with pytest.raises(RackError, match="master 2 of port .* has no cable"):
        line.master(2).cable.off(5)
