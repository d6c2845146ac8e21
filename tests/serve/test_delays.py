"""A rack that was stopped: time in which it was held up is discarded and reported, and releases no slave."""
import contextlib
import signal
import threading
import time

import pytest

from support.clients import wait_for
from support.line_time import UNIT, Poller, ReleaseLog, rack_of
from support.premises import suppose, tried_again

# How often the rack is stopped, for how many seconds, and in which part of a second of polling.
STOPS, STOPPED, BEFORE, POLLED = 5, 0.4, 0.1, 0.8
# Seconds between two polls of a master.
POLL = 0.007


@contextlib.contextmanager
def stopped_meanwhile(server):
    """Stops a server for a while, a moment after this begins. It goes on before this ends."""
    def stop():
        time.sleep(BEFORE)
        server.send_signal(signal.SIGSTOP)
        time.sleep(STOPPED)
        server.send_signal(signal.SIGCONT)

    stopping = threading.Thread(target=stop)
    stopping.start()
    try:
        yield
    finally:
        stopping.join()


@pytest.mark.parametrize("tick", [100, 10])
@tried_again
def test_stops_release_no_slave_that_is_polled(serve, tick):
    """What is more than two ticks of each stop is discarded, so that a watchdog that is shorter than the stop doesn't run out."""
    server = serve(rack_of([1], [5]), "--tick", tick, "--log", "requests")
    log, poller = ReleaseLog(server), Poller(server, 1, 5).exchanges(300)
    for _ in range(STOPS):
        with stopped_meanwhile(server):
            refused = poller.poll_for(POLLED, POLL)
        releases, longest = log.releases(5), poller.longest()
        suppose(longest <= STOPPED + 0.08, f"no poll came for {longest * 1000:.0f} ms")
        assert (releases, refused) == ([], 0)
    # A second has one row at most, so the last row may come a second later.
    at_least = STOPS * (STOPPED * 1000 - 2 * tick - 20)
    wait_for(lambda: sum(log.discarded()) >= at_least)
    assert all(milliseconds % (UNIT * 1000) == 0 for milliseconds in log.discarded())
