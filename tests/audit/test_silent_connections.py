"""A connection that says nothing is closed after ten seconds, and its worker serves the next one."""
import time

from support.clients import connect, exchange, has_ended, open_master, receive
from support.premises import measured, suppose, tried_again
from support.racks import usual_rack
from support.telegrams import ACCEPTED, fresh_diagnosis, slave_diag

# When one speaks late, and from when to when one that says nothing is closed, in seconds.
LATE, FROM, TO = 7, 9, 13
# The seconds that this process and the rack may be held up.
HELD_UP = 1


@tried_again
def test_silent_connection_is_closed(serve, tmp_path):
    """Who has said its address may idle. Of three workers one has a silent client, one that idles, and one that speaks late."""
    server = serve(usual_rack(workers=3), "--audit", tmp_path / f"audit-{len(list(tmp_path.iterdir()))}")
    port = server.ports[1].listen
    with measured(server.pid) as first:
        begun = time.monotonic()
        says_nothing, idles, late, waits = connect(port), open_master(port, 1), connect(port), connect(port)
        waits.send(b"\x03")
        time.sleep(LATE)
        late.send(b"\x02")
    suppose(first.held_up < HELD_UP and first.seconds < FROM, f"this process or the rack was held up for {first.held_up:.1f} s")
    assert receive(late, 1) == ACCEPTED
    assert waits.receive(0) == b"", "a fourth one is accepted by three workers"
    with measured(server.pid) as second:
        assert has_ended(says_nothing)
        closed = time.monotonic() - begun
    suppose(closed <= TO or second.held_up < HELD_UP, f"this process or the rack was held up for {second.held_up:.1f} s")
    assert FROM <= closed <= TO
    assert receive(waits, 1) == ACCEPTED
    time.sleep(max(0, TO + 0.5 - closed))
    for address, session in (1, idles), (2, late), (3, waits):
        assert exchange(session, slave_diag(address, 5)) == fresh_diagnosis(address, 5)
