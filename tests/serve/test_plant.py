"""A plant: a program of operators feeds twenty slaves fifty times a second while time runs and a master polls one of them."""
import threading
import time

import pytest

from support.clients import connect, receive, wait_for
from support.line_time import UNIT, Poller, ReleaseLog, new_folder, rack_of, units_before_rows, whole_rows
from support.premises import measured, suppose, tried_again

SLAVES, RATE, WATCHDOG, POLL = range(40, 60), 50, 200, 0.014


def feed(server, seconds):
    """Sets the inputs of all slaves to each number in turn, each at its time, and returns the seconds that it took."""
    operator, begun, answers = connect(server.ports[1].operator), time.monotonic(), b"done\n" * len(SLAVES)
    for number in range(RATE * seconds):
        time.sleep(max(0, begun + number / RATE - time.monotonic()))
        operator.send(b"".join(b"in %d %04x\n" % (address, number) for address in SLAVES))
        assert receive(operator, len(answers)) == answers
    operator.close()
    return time.monotonic() - begun


@pytest.mark.parametrize("seconds", [4, pytest.param(60, marks=pytest.mark.slow)])
@tried_again
def test_plant(serve, tmp_path, seconds):
    """Each input is taken, a slave that is polled in time stays with what it was fed with, and no time is lost."""
    audit = new_folder(tmp_path)
    server = serve(rack_of([1], SLAVES), "--tick", 400, "--log", "requests", "--audit", audit, "--endless")
    log, poller, fed = ReleaseLog(server), Poller(server, 1, SLAVES[0]).exchanges(WATCHDOG), []
    began = time.monotonic()
    with measured(server.pid) as machine:
        feeding = threading.Thread(target=lambda: fed.append(feed(server, seconds)))
        feeding.start()
        seconds_in_time = 0
        while feeding.is_alive():
            refused = poller.poll_for(1, POLL)
            if poller.is_in_time(WATCHDOG):
                assert refused == 0, "the slave was released while it was polled in time"
                seconds_in_time += 1
            else:
                poller.exchanges(WATCHDOG)
        feeding.join()
    assert fed, "an answer to a feed is wrong"
    suppose(seconds_in_time, "no second had its polls in time")
    inputs = poller.poll()
    suppose(poller.is_in_time(WATCHDOG), "the last poll came too late")
    assert inputs == (RATE * seconds - 1).to_bytes(2, "big")
    suppose(fed[0] <= seconds * 1.25 or machine.held_up < seconds / 4, f"processes had no processor for {machine.held_up:.1f} s")
    assert fed[0] <= seconds * 1.25
    text, passed_by = audit / "line-1-1.000001.audit", time.monotonic() - began - 0.5
    wait_for(lambda: units_before_rows(whole_rows(text))[1] * UNIT + sum(log.discarded()) / 1000 >= passed_by)
