"""Fixtures of the tests of the Python package."""
import pytest

from rackd import Master, connection

from support.processes import PATIENCE
from support.suite_runs import SuiteFolder


@pytest.fixture(autouse=True)
def patient(monkeypatch):
    """An address that is held by a session that has ended is waited for long. Tests of this limit lower it again."""
    monkeypatch.setattr(connection, "HELD_TIME", PATIENCE)


@pytest.fixture
def line(rack):
    """Line 1 of a rack of `rackd.SAMPLE`."""
    return rack.line(1)


@pytest.fixture
def master_of():
    """A function that returns the master of a line with an address, with these options. It waits long for replies."""
    def connect(line, address=1, **options):
        master = line.master(address, **options)
        master.timeout = PATIENCE
        return master

    return connect


@pytest.fixture
def wait_in_turn(monkeypatch):
    """A function that has masters wait for a number of seconds for each reply, one number for each telegram."""
    def set_times(*seconds):
        left = list(seconds)
        monkeypatch.setattr(Master, "timeout", property(lambda _: left.pop(0), lambda *_: None), raising=False)

    return set_times


@pytest.fixture
def wait_long(monkeypatch):
    """All masters wait long for their replies, whatever they are told."""
    monkeypatch.setattr(Master, "timeout", property(lambda _: PATIENCE, lambda *_: None), raising=False)


@pytest.fixture
def suite(tmp_path):
    """A folder in which a test writes scenarios and a master, and runs the suite. See `support.suite_runs`."""
    return SuiteFolder(tmp_path)
