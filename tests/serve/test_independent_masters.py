"""Three masters that share no code with this repository, and `rackd judge`, which finds nothing in them.

The masters are those of tests/oracle/masters: in Python, Perl and C. A text in which nothing happened is clean too, so each
test also looks in it for what was done to the master. tests/serve/test_wrong_masters.py has masters that break a rule.
"""
import contextlib
import socket
import tempfile
import time
from collections import Counter
from pathlib import Path

import pytest

from rackd.cable import Cable, RunningCable
from support.clients import wait_for
from support.independent_masters import IDENTS, RunningMaster, WatchedRack, command_of, slave_words
from support.premises import measured, suppose, tried_again
from support.processes import PATIENCE

# The rule that counts an operator's tick as time in which the master was silent, and the one by which a reply that a cable lost
# looks answered: the audit text doesn't have what the master saw.
TIME_JUMPS, LOST_REPLIES = "watchdog-short", "fcb-not-alternated"
SLAVES = slave_words()
HOLDERS = dict.fromkeys(SLAVES, 1)
# A watchdog as masters use it, in milliseconds.
USUAL_WATCHDOG = 2_000

pytestmark = pytest.mark.parametrize("language", ["python", "perl", "c"])


@pytest.fixture
def serve_rack(serve, run, tmp_path):
    """A function that serves one more rack of these tests."""
    return lambda **text: WatchedRack(serve, run, Path(tempfile.mkdtemp(prefix="audit-", dir=tmp_path)), **text)


@pytest.fixture
def rack(serve_rack):
    return serve_rack()


@pytest.fixture
def start(tmp_path):
    """A function that starts a master of a language. Those that still run are killed after the test."""
    masters = []

    def call(language, *words, **options):
        master = RunningMaster(command_of(language, tmp_path), *words, **options)
        masters.append(master)
        return master

    yield call
    for master in masters:
        master.kill()


def suppose_no_delay(rack):
    """Supposes that no master was held up for half of a usual watchdog."""
    suppose(rack.longest_silence() < USUAL_WATCHDOG // 20, f"for {rack.longest_silence()} units of 10 ms no request came")


@tried_again
def test_alone(serve_rack, start, language):
    """Three slaves, each exchanges data 50 times and is unlocked at the end. The words are those of the environment."""
    rack = serve_rack()
    slaves = slave_words(USUAL_WATCHDOG)
    report = start(language, rack.port, slaves.values(), "--exchanges", "50", "--unlock", by_environment=True).end(stop=False)
    suppose_no_delay(rack)
    assert sorted(report) == sorted(slaves)
    for address, counts in report.items():
        assert counts["exchanges"] >= 50
        assert (counts["starts"], counts["losses"]) == (1, 0)
        assert rack.show(address).startswith(f"show {address} WaitPrm none ")
    rack.end_clean()


@tried_again
def test_sync_freeze(serve_rack, start, language):
    """Sync of two groups and Freeze of a third, then both of one group in one telegram."""
    rack = serve_rack()
    words = rack.port, slave_words(USUAL_WATCHDOG).values(), "--exchanges", "60"
    start(language, *words, "--sync", "05", "--freeze", "02").end(stop=False)
    start(language, *words, "--sync", "01", "--freeze", "01", "--unlock").end(stop=False)
    suppose_no_delay(rack)
    controls = rack.requests(point=58)
    commands = Counter(request.data.hex() for request in controls)
    assert all(commands[command] for command in ("2005", "0802", "1005", "0402", "2801", "1401")), commands
    for request in controls:
        if request.data.hex() == "2005":
            assert "5:Done" in request.outcome and "7:Done" in request.outcome
    rack.end_clean()


def test_operator(rack, start, language):
    """Watchdogs that run out, reported diagnoses, and busy marks, in data exchange and while slaves are brought up."""
    master = start(language, rack.port, SLAVES.values(), "--sync", "05", "--freeze", "02", "--unlock")
    rack.wait_until_started(HOLDERS)
    rack.operate("in 5 aa55")
    rack.wait_for_requests(1, "diag 5 e 04010203", station=5, point=60, rule="Done")
    rack.wait_for_requests(4, "diag 6 es 0401", station=6, point=60, rule="Done")
    rack.wait_for_requests(5, "diag 6 - -", station=6, point=None, rule="Done")
    # The second time at once after Chk_Cfg: the master may not have seen yet that the slaves are ready.
    for _ in range(2):
        rack.expire()
        wait_for(lambda: rack.exchanging(HOLDERS), every=0.02)
    rack.wait_until_started(HOLDERS)
    rack.wait_for_requests(2, "busy 5 default on", station=5, point=None, rule="Busy")
    rack.operate("busy 5 default off")
    rack.operate("busy 6 60 on")
    rack.wait_for_requests(2, "diag 6 e 0402", station=6, point=60, rule="Busy")
    rack.wait_for_requests(1, "busy 6 60 off", station=6, point=60, rule="Done")
    marks = ((5, 62), (6, 60), (7, 61))
    for address, point in marks:
        rack.operate(f"busy {address} {point} on")
    rack.expire()
    for address, point in marks:
        rack.wait_for_requests(2, station=address, point=point, rule="Busy")
    for address, point in marks:
        rack.operate(f"busy {address} {point} off")
    rack.wait_until_started(HOLDERS)
    rack.expire()
    rack.wait_until_started(HOLDERS)
    assert all(counts["starts"] >= 4 for counts in master.end().values()), master.slaves
    rack.end_clean(without=(TIME_JUMPS,))


def test_ident(serve_rack, start, language):
    """A slave whose ident is wrong, until another rack is served at the port. The master connects again."""
    first = serve_rack(ident=IDENTS[7] + 1)
    master = start(language, first.port, SLAVES.values(), "--exchanges", "100")
    first.wait_until_started({5: 1, 6: 1})
    first.wait_for_requests(5, station=7, point=60)
    assert first.requests(station=7, point=None) == []
    first.end_clean()
    second = serve_rack(listen=first.port)
    report = master.end(stop=False)
    assert report[5]["starts"] >= 2 and report[6]["starts"] >= 2 and report[7]["starts"] == 1, report
    second.end_clean()


def test_others(rack, start, language):
    """A slave that another master holds, that becomes free, and that both masters try to get."""
    other = {"python": "c", "perl": "python", "c": "perl"}[language]
    holder = start(other, rack.port, [SLAVES[6]], "--unlock", address=2)
    wait_for(lambda: rack.exchanging({6: 2}), every=0.02)
    master = start(language, rack.port, SLAVES.values())
    rack.wait_until_started({5: 1, 7: 1})
    rack.wait_for_requests(5, master=1, station=6, point=60)
    assert {request.point for request in rack.requests(master=1, station=6)} == {60}
    holder.end()
    rack.wait_until_started(HOLDERS)
    holder = start(other, rack.port, [SLAVES[6]], address=2)
    rack.wait_for_requests(3, master=2, station=6, point=60)
    for _ in range(4):
        rack.expire()
        wait_for(lambda: rack.exchanging({5: 1, 7: 1}) and (rack.exchanging({6: 1}) or rack.exchanging({6: 2})), every=0.02)
    holder.end(statuses=(0, 1))
    master.end()
    rack.end_clean(without=(TIME_JUMPS,))


def test_cable(rack, start, program, tmp_path, language):
    """A cable that loses, spoils, cuts and delays replies, and takes a slave off the bus."""
    with contextlib.closing(RunningCable(program, rack.port, Cable(), tmp_path)) as cable:
        master = start(language, cable.listen, SLAVES.values(), "--sync", "05", "--slot", "100")
        rack.wait_until_started(HOLDERS)
        rack.operate("diag 5 e 0401")
        for order in [(cable.lose, 5, 1), (cable.lose, 5, 3), (cable.spoil, 7, 1), (cable.cut, 6, 1), (cable.late, 7, 1, 150),
                      (cable.late, 5, 1, 250), (cable.lose, 6, 4), (cable.lose, 7, 6)]:
            order[0](*order[1:])
            cable.wait_done(PATIENCE)
            rack.wait_for_requests(3, station=order[1], point=None, rule="Done")
        # A request, its three retries, and the first one to a slave that is lost. The cable has a row for each of them.
        before = len(cable.log())
        cable.off(5)
        wait_for(lambda: len(cable.log()) >= before + 5, every=0.02)
        cable.on(5)
        rack.wait_for_requests(3, station=5, point=None, rule="Done")
        report = master.end()
        for counts in report.values():
            assert counts["losses"] >= 1 and counts["retries"] >= 4 and counts["starts"] >= 2, report
        losses = sum(counts["losses"] for counts in report.values())
        assert len(rack.requests(control=0x6D)) >= 3 + losses, "FCB does not begin again after each loss"
        assert len(rack.requests(rule="Repeat")) >= 6
        assert master.strays >= 1, "no late reply was dropped"
    rack.end_clean(without=(LOST_REPLIES,))


def test_absent(rack, start, language):
    """A slave that never answers, beside one that does; no watchdogs."""
    slaves = ["5:80A1:2111:2:0:01", "9:80A1:2111:2:0:01"]
    master = start(language, rack.port, slaves, "--unlock", "--slot", "100")
    rack.wait_for_requests(6, station=9)
    rack.wait_for_requests(6, station=5, point=None, rule="Done")
    master.end(statuses=(1,))
    asked = rack.requests(station=9)
    assert {(request.point, request.rule) for request in asked} == {(60, "NoStation")}
    rack.end_clean()


@tried_again
def test_replies(start, language):
    """A reply that comes late, and replies of slave 6 and for master 2. The line is one of this test, and no rack."""
    with socket.create_server(("127.0.0.1", 0)) as listener:
        listener.settimeout(PATIENCE)
        master = start(language, listener.getsockname()[1], [SLAVES[5]], "--slot", "100", "--cycle", "1000")
        line, _ = listener.accept()
        with line:
            line.settimeout(PATIENCE)
            assert line.recv(1) == b"\x01"
            line.sendall(b"\xe5")
            first = line.recv(255)
            # The master waits for 100 ms, and sends again 1000 ms later. In between comes that master 2 holds the slave.
            with measured(master.process.pid) as delay:
                time.sleep(0.5)
                line.sendall(bytes.fromhex("680b0b688185083e3c0004000180a1af16"))
            suppose(delay.seconds < 0.9 and delay.held_up < 0.3, f"the late reply took {delay.seconds:.3f} s")
            assert line.recv(255) == first
            line.sendall(bytes.fromhex("680b0b688185083e3c020500ff80a1af16"))
            for point, replies in [(61, "100106030a16" + "100205030a16"), (62, ""), (60, "")]:
                octets = line.recv(255)
                assert octets[7] == point, f"a reply misleads the master: {octets.hex()}"
                line.sendall(bytes.fromhex(replies) + b"\xe5")
        master.kill()
