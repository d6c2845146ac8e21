"""How racks end that are closed: their clients, their files, and the check of their journals."""
import socket

import pytest

import rackd
from rackd import NotLegal, Rack, RackFault, SessionEnded
from rackd import rack as rack_module

from support.package_runs import names_in, runs, stand_in
from support.processes import PATIENCE
from support.racks import line as line_text
from support.racks import rack as rack_text


def test_close(master_of):
    rack = Rack(rackd.SAMPLE)
    master, operator, port = master_of(rack.line(1)), rack.line(1).operator(), rack.line(1).port(2)
    rack.close()
    assert (rack.status, rack.folder.exists(), runs(rack.pid)) == (0, False, False)
    assert (master.is_open, operator.is_open, port.is_open) == (False, False, False)
    rack.close()
    with pytest.raises(SessionEnded):
        master.slave_diag(5)


def test_clients_of_others_end_too():
    rack = Rack(rackd.SAMPLE)
    with socket.create_connection(("127.0.0.1", rack.line(1).listen)) as client:
        client.settimeout(PATIENCE)
        client.sendall(b"\1")
        assert client.recv(1) == b"\xe5"
        rack.close()
        assert client.recv(1) == b""


def test_files_stay_in_a_folder_that_is_named(tmp_path):
    racks = [Rack(rackd.SAMPLE, folder=tmp_path / "kept") for _ in range(2)]
    for rack in racks:
        rack.line(1).operator().tick()
        rack.close()
    assert len(names_in(tmp_path / "kept")) == 2
    for rack in racks:
        rows = (rack.audit / "line-1-1.audit").read_text(encoding="ascii").splitlines()
        assert rows[1:] == ["1 tick 1 | none | released"]


def test_journal_that_is_not_legal(tmp_path):
    rack = Rack(rackd.SAMPLE, folder=tmp_path)
    rack.line(1).operator().tick()
    file, = rack.line(1).files()
    file.write_text(file.read_text(encoding="ascii").replace("released", "released 5"), encoding="ascii")
    with pytest.raises(NotLegal) as raised:
        rack.close()
    assert (raised.value.line, raised.value.verdict) == (1, "not the policy 2")
    assert f'row 2 of {file}: written "1 tick 1 | none | released 5"' in str(raised.value)
    assert file.exists()
    assert not runs(rack.pid)


@pytest.mark.parametrize("number", [2, 3])
def test_each_line_is_checked(tmp_path, number):
    rack = Rack(rack_text(line_text(2, 5), line_text(3, 5)), folder=tmp_path)
    file, = rack.line(number).files()
    file.write_text("nonsense\n", encoding="ascii")
    with pytest.raises(NotLegal, match=f"the journal of line {number} is not legal: bad line 1"):
        rack.close()


def test_failing_test_stays_the_failure():
    with pytest.raises(ZeroDivisionError), Rack(rackd.SAMPLE):
        1 // 0


def test_status_at_the_end(tmp_path):
    rack = Rack(rackd.SAMPLE, program=stand_in(tmp_path, "echo ready; cat; echo '[WARN  rackd] line 1: halted' >&2\n"
                                               "echo 'rackd: cannot write X' >&2; echo '  no space left' >&2; exit 5"))
    with pytest.raises(RackFault) as raised:
        rack.close()
    assert (raised.value.status, raised.value.row) == (5, "rackd: cannot write X")
    assert (raised.value.cause, len(raised.value.rows)) == ("no space left", 2)
    assert not rack.folder.exists()


def test_much_output_at_the_end(tmp_path):
    rack = Rack(rackd.SAMPLE, program=stand_in(tmp_path, "echo ready; cat; head -c 1000000 /dev/zero; exit 3"))
    with pytest.raises(RackFault, match="ended with status 3 when it was closed"):
        rack.close()


def test_program_that_does_not_end(tmp_path, monkeypatch):
    rack = Rack(rackd.SAMPLE, program=stand_in(tmp_path, "echo ready; exec sleep 600"))
    monkeypatch.setattr(rack_module, "END_TIME", 0.5)
    with pytest.raises(RackFault, match="did not end within 0.5 s"):
        rack.close()
    assert not runs(rack.pid)
