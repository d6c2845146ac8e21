"""Masters that connect and send no address."""
import signal
import time

from support.clients import connect, has_ended
from support.premises import measured, suppose, tried_again
from support.racks import rack
from support.telegrams import fresh_diagnosis, slave_diag

# Seconds after which a connection of a master without an address is closed, and for which the rack is stopped meanwhile.
SILENCE, STOPPED = 10, 5


@tried_again
def test_silent_masters_are_closed_by_the_clock(serve):
    """A connection without an address is closed after ten seconds, not earlier, and not later because the rack was stopped.

    A master with its address stays.
    """
    server = serve(rack(), "--log", "--until-input-ends", piped=True)
    with measured(server.pid) as machine:
        master = server.master(1)
        begun = time.monotonic()
        silent = connect(server.ports[1].listen)
        time.sleep(1)
        server.send_signal(signal.SIGSTOP)
        time.sleep(STOPPED)
        server.send_signal(signal.SIGCONT)
        assert has_ended(silent)
        closed = time.monotonic() - begun
    assert master.raw(slave_diag(1, 5)) == fresh_diagnosis(1, 5)
    server.end_input()
    assert "line 1: no address came: " in server.wait().errors
    assert closed >= SILENCE
    suppose(closed < SILENCE + STOPPED / 2 or machine.held_up < 0.5, f"processes had no processor for {machine.held_up:.1f} s")
    assert closed < SILENCE + STOPPED / 2
