"""The operator, at a rack. What is expected is that of docs/reference/scripts.md and docs/reference/policy.md."""
import socket

import pytest

import rackd
from rackd import (Halted, NoReply, NoStation, NotACommand, Operator, OperatorRefused, Refused, Show, State, TooLong,
                   UnknownPoint, WrongLength)
from rackd import operator as module

from support.package_runs import CFG, IDENT
from support.racks import line as line_text
from support.racks import rack as rack_text
from support.racks import slave


@pytest.fixture
def operator(line):
    """The operator of line 1 of a rack of `rackd.SAMPLE`."""
    return line.operator()


@pytest.fixture
def master(line, master_of):
    """Master 1 of the same line."""
    return master_of(line)


def test_inputs_and_show(operator, master):
    operator.input(5, b"\xaa\x55")
    assert operator.show(5) == Show(5, State.WAIT_PRM, None, b"\xaa\x55", b"\0\0", None)
    master.set_prm(5, IDENT, watchdog_ms=50)
    assert operator.show(5).state == State.WAIT_CFG
    master.chk_cfg(5, CFG)
    assert master.data_exchange(5, b"\x12\x34") == b"\xaa\x55"
    assert operator.show(5) == Show(5, State.DATA_EXCH, 1, b"\xaa\x55", b"\x12\x34", 5)
    assert operator.show(5).state == "DataExch"


def test_slave_without_data(rack_factory):
    operator = rack_factory(rack_text(line_text(1, slave(5, cfg="00")))).line(1).operator()
    operator.input(5, b"")
    assert operator.show(5) == Show(5, State.WAIT_PRM, None, b"", b"", None)


def test_step(operator):
    # slaves 6 and 7 have devices that are not still; that of 6 counts
    assert (operator.step(), operator.step()) == (2, 2)
    assert operator.show(6).inputs == b"\0\2"


def test_owned_oldest_lock_first(operator, master):
    assert operator.owned(1) == []
    for slave_of in (7, 5):
        master.set_prm(slave_of, IDENT)
    assert operator.owned(1) == [7, 5]


def test_tick_releases(operator, master):
    for slave_of, milliseconds in ((7, 20), (5, 20), (6, 30)):
        master.set_prm(slave_of, IDENT, watchdog_ms=milliseconds)
    assert [operator.tick(), operator.tick(1), operator.tick(1)] == [[], [5, 7], [6]]


@pytest.mark.parametrize("extended, bits, seen", [
    pytest.param(b"\x03\x01\x02", {"ext_diag": True}, (True, False, False), id="extended"),
    pytest.param(b"", {"stat_diag": True, "overflow": True}, (False, True, True), id="bits-only"),
])
def test_diag(operator, master, extended, bits, seen):
    # what is reported later takes the place of this
    operator.diag(5, b"\xff", ext_diag=not seen[0], stat_diag=not seen[1], overflow=not seen[2])
    operator.diag(5, extended, **bits)
    diagnosis = master.slave_diag(5)
    assert (diagnosis.ext_diag, diagnosis.stat_diag, diagnosis.ext_diag_overflow) == seen
    assert diagnosis.extended == extended


def test_busy_point(operator, master):
    operator.busy(5, 60)
    with pytest.raises(rackd.RR):
        master.slave_diag(5)
    operator.busy(5, 60, on=False)
    assert master.slave_diag(5).ident == IDENT


def test_busy_default_point(operator, master):
    master.bring_up(5, IDENT, CFG)
    operator.busy(5)
    with pytest.raises(rackd.RR):
        master.data_exchange(5, b"\0\0")
    operator.busy(5, on=False)
    assert master.data_exchange(5, b"\0\0") == b"\0\0"


@pytest.mark.parametrize("kind, command", [
    (NoStation, lambda operator: operator.show(9)),
    (WrongLength, lambda operator: operator.input(5, b"\0")),
    (UnknownPoint, lambda operator: operator.busy(5, 1)),
    (NotACommand, lambda operator: operator.ask("hello")),
    (TooLong, lambda operator: operator.ask("#" * 2000)),
    (Halted, lambda operator: (operator.halt(), operator.tick())),
])
def test_refusals_have_their_names(operator, kind, command):
    with pytest.raises(Refused) as raised:
        command(operator)
    assert raised.type is kind


def test_refusals_have_a_base():
    assert issubclass(NoStation, OperatorRefused)


def test_halt_releases(operator, master):
    master.set_prm(5, IDENT)
    assert operator.halt() == [5]


def test_a_command_is_one_line(operator):
    with pytest.raises(ValueError):
        operator.ask("tick 1\nhalt")


def test_same_operator_until_it_is_closed(operator, line):
    assert line.operator() is operator
    operator.close()
    assert line.operator() is not operator
    assert line.operator().owned(1) == []


def test_no_answer(monkeypatch):
    monkeypatch.setattr(module, "ANSWER_TIME", 0.05)
    with socket.create_server(("127.0.0.1", 0)) as listener:
        silent = Operator(listener.getsockname()[1])
        with pytest.raises(NoReply):
            silent.tick()
        assert not silent.is_open
