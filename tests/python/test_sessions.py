"""Masters at a rack: who holds a slave, and which sessions a line accepts."""
import time
from types import SimpleNamespace

import pytest

from rackd import RS, UE, Master, NotAccepted, SessionEnded, connection

from support.clients import free_ports
from support.package_runs import CFG, IDENT
from support.racks import rack

# Seconds after which it is certain that nothing comes.
SILENCE = 0.2


def test_second_master_is_refused_until_the_slave_is_released(line, master_of):
    one, two = master_of(line, 1), master_of(line, 2)
    one.bring_up(5, IDENT, CFG, watchdog_ms=100)
    assert two.slave_diag(5).holder == 1
    with pytest.raises(RS):
        two.set_prm(5, IDENT)
    with pytest.raises(UE):
        one.data_exchange(5, b"\0")
    assert line.operator().tick(10) == [5]
    two.bring_up(5, IDENT, CFG)
    assert two.slave_diag(5).holder == 2


def test_live_list(line, master_of):
    master = master_of(line, 1)
    assert master.fdl_status(5)
    master.timeout = SILENCE
    assert not master.fdl_status(4)


def test_one_session_until_it_is_closed(line, master_of):
    master = line.master(1)
    assert line.master(1) is master
    master.close()
    with pytest.raises(SessionEnded):
        master.slave_diag(5)
    again = master_of(line, 1)
    assert again is not master
    # FCV 0 and FCB 1 again
    assert again.slave_diag(5).ident == IDENT
    assert line.journal()[-1].octets[6] == 0x6D


@pytest.mark.parametrize("address", [pytest.param(9, id="no-master"), pytest.param(1, id="held")])
def test_not_accepted(line, monkeypatch, address):
    line.master(1)
    monkeypatch.setattr(connection, "HELD_TIME", SILENCE)
    with pytest.raises(NotAccepted, match="no master of this line, or another session"):
        Master(line.listen, address)


def test_all_workers_are_busy(rack_factory, monkeypatch):
    line = rack_factory(rack(workers=1)).line(1)
    line.master(1)
    monkeypatch.setattr(connection, "ANSWER_TIME", SILENCE)
    with pytest.raises(NotAccepted, match="workers .* are busy"):
        line.master(2)


def test_address_that_is_free_a_moment_later(line, monkeypatch):
    """A session is accepted, though another one has its address at first: that one ends after the first refusal."""
    session, ends = line.master(1), []

    def end_and_sleep(seconds):
        ends.append(session.close())
        time.sleep(seconds)

    monkeypatch.setattr(connection, "time", SimpleNamespace(monotonic=time.monotonic, sleep=end_and_sleep))
    Master(line.listen, 1).close()
    assert ends, "the session was accepted at once"


def test_nobody_listens():
    with pytest.raises(SessionEnded, match="refused"):
        Master(free_ports(1)[0], 1)
