"""How a rack starts: rack files, ports, the clock, the log, and faults."""
import os
import re
import socket

import pytest

import rackd
from rackd import Rack, RackError, RackFault
from rackd import rack as rack_module

from support.clients import free_ports, wait_for
from support.package_runs import IDENT, runs, stand_in
from support.racks import line as line_text
from support.racks import rack as rack_text
from support.racks import slave


@pytest.mark.parametrize("way", ["text", "path", "path-as-text"])
def test_rack_file(rack_factory, master_of, tmp_path, way):
    path = tmp_path / "rack.toml"
    path.write_text(rack_text(), encoding="ascii")
    rack = rack_factory({"text": rack_text(), "path": path, "path-as-text": str(path)}[way])
    assert [line.number for line in rack.lines] == [1]
    assert master_of(rack.line(1)).slave_diag(5).ident == IDENT


def test_lines_have_their_ports(rack_factory, master_of):
    rack = rack_factory(rack_text(*(line_text(number, slave(number, ident=1, cfg="11"), masters=[1]) for number in (7, 3))))
    assert [line.number for line in rack.lines] == [3, 7]
    for line in rack.lines:
        assert line.operator().show(line.number).inputs == b"\0\0"
        assert master_of(line).fdl_status(line.number)
    assert len({port for line in rack.lines for port in (line.listen, line.operator_port)}) == 4
    with pytest.raises(RackError, match="no line 1; it has 3, 7"):
        rack.line(1)


def test_clock_and_options(rack_factory, master_of):
    rack = rack_factory(rackd.SAMPLE, tick=20, step=20, options=["--endless"])
    line = rack.line(1)
    master_of(line).set_prm(5, IDENT, watchdog_ms=50)
    wait_for(lambda: not line.operator().owned(1))
    wait_for(lambda: line.operator().show(6).inputs != b"\0\0")
    assert [path.name for path in line.files()] == ["line-1-1.000001.audit"]


def test_without_a_clock(line):
    assert line.operator().show(6).inputs == b"\0\0"
    assert line.journal().entries == ()


def test_log(rack, master_of):
    assert master_of(rack.line(1)).fdl_status(5)
    rack.line(1).master(1)._send(bytes.fromhex("100501494e16"))
    row = "line 1 master 1: dropped 6 octets: BadEnd (10 05 01 49 4e 16), the check sequence is 4e, not 4f"
    wait_for(lambda: any(row in written for written in rack.log()))
    assert not any("-> reply" in written for written in rack.log())


def test_log_of_requests(rack_factory):
    rack = rack_factory(rackd.SAMPLE, options=["--log", "requests"])
    rack.line(1).master(1).fdl_status(5)
    wait_for(lambda: any("-> reply" in written for written in rack.log()))


@pytest.mark.parametrize("text, row, cause", [
    pytest.param(rack_text().replace("masters", "mesters"), "rackd: rack BadKey",
                 r'line \d+, key "mesters": no such key, perhaps "masters"', id="bad-key"),
    pytest.param(rack_text() + "x\n", "rackd: rack NotToml", ".+", id="no-toml"),
    pytest.param(rack_text(line_text(1, 5, capacity=1)), "rackd: rack line 1 Limit", "line 1: capacity 1, expected 2 to 65536",
                 id="limit"),
])
def test_both_rows_of_a_fault(text, row, cause):
    with pytest.raises(RackFault) as raised:
        Rack(text)
    fault = raised.value
    assert (fault.status, fault.row) == (2, row)
    assert fault.rows[:2] == (row, f"  {fault.cause}")
    assert re.fullmatch(r'  row \d+ of .*: (found|table) ".*"', fault.rows[2])
    assert len(fault.rows) == 3
    assert re.fullmatch(cause, fault.cause)
    assert f"ended with status 2 before it was ready\n{row}\n  {fault.cause}" in str(fault)


def test_port_that_is_in_use():
    with socket.create_server(("127.0.0.1", 0)) as listener:
        port = listener.getsockname()[1]
        with pytest.raises(RackFault) as raised:
            Rack(rack_text(line_text(1, 5, listen=port)))
    assert raised.value.rows == (f"rackd: cannot listen on {port}", "  another program uses this port")


def test_fixed_ports(rack_factory):
    port, = free_ports(1)
    line = rack_factory(rack_text(line_text(1, 5, operator=port))).line(1)
    assert line.operator_port == port
    assert line.operator().owned(1) == []


def test_no_such_rack_file(tmp_path):
    with pytest.raises(RackFault) as raised:
        Rack(tmp_path / "none.toml")
    assert raised.value.row == f"rackd: cannot read {tmp_path / 'none.toml'}"


def test_not_ready_in_time(tmp_path, monkeypatch):
    pid = tmp_path / "pid"
    program = stand_in(tmp_path, f"echo 'it waits' >&2; echo $$ >{pid}.new; mv {pid}.new {pid}; exec sleep 600")

    class Clock:
        """A clock whose time runs out once the program has written its row."""

        @staticmethod
        def monotonic():
            return 1e9 if pid.exists() else 0.0

    monkeypatch.setattr(rack_module, "READY_TIME", 0.5)
    monkeypatch.setattr(rack_module, "time", Clock)
    with pytest.raises(RackFault, match="not ready after 0.5 seconds\nit waits"):
        Rack(rackd.SAMPLE, program=program)
    assert not runs(int(pid.read_text(encoding="ascii")))


def test_ready_in_pieces_behind_other_rows(tmp_path, rack_factory):
    program = stand_in(tmp_path, "rm \"$ports\"; echo already; printf rea; sleep 0.1\n"
                       "echo 'line 1 listen 1 operator 2' >\"$ports\"; echo dy; cat; exit 0")
    line = rack_factory(rackd.SAMPLE, program=program).line(1)
    assert (line.listen, line.operator_port) == (1, 2)


def test_ctrl_c_is_not_for_the_rack(rack):
    assert os.getpgid(rack.pid) != os.getpgid(0)
    assert os.getsid(rack.pid) != os.getsid(0)
