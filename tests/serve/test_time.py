"""Time by the clock (`--tick`): watchdogs run out by the wall clock, and a slave that is polled in time stays.

When a slave was released is read from the log, whose rows have the time of day. The rack takes a request after it was sent and
before its reply has come. So lower bounds hold on a machine of any speed; the upper bounds are those of the median.
"""
import random
import re
import statistics
import time
from concurrent.futures import ThreadPoolExecutor

import pytest

from support.clients import wait_for
from support.line_time import DIGIT, UNIT, Poller, ReleaseLog, new_folder, rack_of, since, units_before_rows, whole_rows
from support.premises import measured, suppose, tried_again
from support.racks import line, rack

# The milliseconds of a tick, and the seconds that a release may be late beside it, by median.
TICK, LATE = 50, 0.020
# Seconds between two polls of a master.
POLL = 0.007


def suppose_in_time(late, machine, at_once):
    """Supposes that the machine is not the reason if the median of what releases are late is more than a tick and 20 ms.

    It can be the reason only if half of the releases waited so long for a processor, this number of them at the same moment.
    """
    median = statistics.median(late)
    most_waited = (median - TICK / 1000) * len(late) / 2 / at_once
    suppose(median <= TICK / 1000 + LATE or machine.all_held_up < most_waited,
            f"processes had no processor for {machine.all_held_up:.2f} s")


@pytest.mark.parametrize("watchdog", [20, 100, 300])
@tried_again
def test_watchdogs_run_out_by_the_wall_clock(serve, watchdog):
    """No slave is released early, and by median none is released later than a tick and 20 ms.

    Each of four lines has one master, so that no request of another one has its time pass.
    """
    lines, rounds, phases = range(1, 5), 17, random.Random(watchdog)
    server = serve(rack(*(line(number, 5) for number in lines)), "--tick", TICK, "--log", "requests")
    log, late = ReleaseLog(server), []

    def release_often(number):
        poller = Poller(server, 1, 5, number)
        for count in range(1, rounds + 1):
            time.sleep(phases.uniform(0, TICK / 1000))
            poller.lock(watchdog)
            late.append(since(poller.sent, log.release(5, count, number)) - watchdog / 1000)

    with ThreadPoolExecutor(len(lines)) as threads, measured(server.pid) as machine:
        list(threads.map(release_often, lines))
    assert len(late) == 68
    assert min(late) > -UNIT - DIGIT
    suppose_in_time(late, machine, len(lines))
    assert statistics.median(late) <= TICK / 1000 + LATE


def test_time_passes_before_each_request(serve, run, tmp_path):
    """Before each request the line gets the units that have passed since the one before, however seldom a tick is due."""
    requests, pauses, asked = 200, random.Random(1), []
    server = serve(rack_of([1], [5]), "--tick", 5000, "--audit", tmp_path / "audit", "--log", "requests")
    poller = Poller(server, 1, 5)
    poller.lock(2550)
    for _ in range(requests):
        before = time.monotonic()
        poller.lock(2550)
        asked.append((before, time.monotonic()))
        time.sleep(pauses.uniform(0, 0.03))
    text = tmp_path / "audit" / "line-1-1.audit"
    rows = whole_rows(text)
    units, _ = units_before_rows(rows)
    passed = [unit for row, unit in zip(rows.splitlines()[1:], units) if b" req " in row][1:]
    assert len(passed) == requests
    # The moments between which the clock of the line has started, by each request.
    earliest = max(sent - (unit + 1) * UNIT for (sent, _), unit in zip(asked, passed))
    latest = min(came - unit * UNIT for (_, came), unit in zip(asked, passed))
    assert earliest <= latest + 0.001, "no start of the clock agrees with the units before each request"
    assert run("check", server.rack, text).output == f"legal {len(units)}\n"


@tried_again
def test_slave_that_is_polled_in_time_stays(serve):
    """However seldom a tick is due, a slave is released only after its master has paused."""
    watchdog = 100
    server = serve(rack_of([1], [5]), "--tick", 200, "--log", "requests")
    log, poller = ReleaseLog(server), Poller(server, 1, 5).exchanges(watchdog)
    refused = poller.poll_for(3, POLL)
    released = len(log.releases(5))
    suppose(poller.is_in_time(watchdog), "a poll came too late")
    assert (released, refused) == (0, 0)
    assert since(poller.sent, log.release(5, 1)) - watchdog / 1000 > -UNIT - DIGIT


@tried_again
def test_sixteen_masters_poll_at_once(serve, run, tmp_path):
    """Each of sixteen masters on one line keeps its slave while it polls it, and loses it when it pauses."""
    masters, watchdog, audit = range(10, 26), 200, new_folder(tmp_path)
    server = serve(rack_of(masters, [master + 30 for master in masters], "mirror"), "--tick", TICK, "--log", "requests",
                   "--audit", audit)
    log, polling = ReleaseLog(server), random.Random(2)

    def poll_and_pause(master):
        poller = Poller(server, master, master + 30).exchanges(watchdog)
        refused = poller.poll_for(2 + polling.uniform(0, 0.3), 3 * POLL)
        released = len(log.releases(poller.slave))
        if not poller.is_in_time(watchdog):
            return None
        assert (released, refused) == (0, 0), f"slave {poller.slave} was released while it was polled in time"
        return since(poller.sent, log.release(poller.slave, 1)) - watchdog / 1000

    with ThreadPoolExecutor(len(masters)) as threads, measured(server.pid) as machine:
        late = list(threads.map(poll_and_pause, masters))
    suppose(None not in late, "a poll came too late")
    assert min(late) > -UNIT - DIGIT
    suppose_in_time(late, machine, len(masters))
    assert statistics.median(late) <= TICK / 1000 + LATE
    rows = whole_rows(audit / "line-1-1.audit")
    (tmp_path / "text").write_bytes(rows)
    assert run("check", server.rack, tmp_path / "text").output == f"legal {rows.count(10) - 1}\n"


def test_time_passes_while_an_operator_stays(serve):
    """If the last session of a master has ended, time goes on for as long as an operator is served."""
    server = serve(rack_of([1], [5]), "--sessions", 1, "--tick", 10)
    with server.operator() as operator:
        poller = Poller(server, 1, 5)
        poller.lock(60000)
        poller.close()
        left = operator.ask("show 5")
        assert re.fullmatch(r"show 5 WaitCfg 1 in 0000 out 0000 wd \d+", left)
        wait_for(lambda: operator.ask("show 5") != left)
    assert server.wait().status == 0


def test_no_time_passes_without_a_clock(serve, tmp_path):
    """Without `--tick` and `--step` only operators have time pass and devices step."""
    server = serve(rack_of([1], [7], "counter"), "--audit", tmp_path / "audit")
    poller = Poller(server, 1, 7).exchanges(20)
    for _ in range(20):
        assert poller.poll() == b"\x00\x00"
        time.sleep(0.03)
    with server.operator() as operator:
        assert operator.ask("show 7") == "show 7 DataExch 1 in 0000 out 0000 wd 2"
        assert operator.ask("tick 2") == "released 7"
    rows = whole_rows(tmp_path / "audit" / "line-1-1.audit")
    assert re.findall(rb"(?m)^\d+ tick .*", rows) == [b"23 tick 2 | none | released 7"]
    assert b" in 7 " not in rows
