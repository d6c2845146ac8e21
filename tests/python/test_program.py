"""Which program a rack is: the one that is named, of the variable RACKD, of the installation, of the checkout, or of the PATH."""
import tempfile
from pathlib import Path

import pytest

import rackd
from rackd import NoProgram, Rack, RackFault
from rackd import program as program_module
from rackd.program import find_program

from support.package_runs import PACKAGE, executable, names_in

# The ways to a program, the first one first.
WAYS = ["named", "variable", "installed", "carried", "on-the-path"]


@pytest.fixture
def programs(tmp_path, monkeypatch):
    """A program for each way, by the names of the ways."""
    found = {way: executable(tmp_path / way / "rackd", "") for way in WAYS}
    monkeypatch.setenv("RACKD", found["variable"])
    monkeypatch.setenv("PATH", str(tmp_path / "on-the-path"))
    monkeypatch.setattr(program_module, "INSTALLED", Path(found["installed"]))
    monkeypatch.setattr(program_module, "CARRIED", Path(found["carried"]))
    return found


def test_order(programs, monkeypatch):
    assert find_program(programs["named"]) == programs["named"]
    assert find_program() == programs["variable"]
    monkeypatch.delenv("RACKD")
    for way in "installed", "carried", "on-the-path":
        assert find_program() == programs[way]
        Path(programs[way]).unlink()
    with pytest.raises(NoProgram, match="there is no rackd"):
        find_program()


def test_carried_is_that_of_the_checkout():
    assert program_module.CARRIED == PACKAGE.parent / "dist/x86_64-linux/rackd"


def test_installed_is_beside_the_package():
    assert program_module.INSTALLED == PACKAGE / "rackd/program/rackd"


def test_program_that_is_none():
    with pytest.raises(NoProgram, match="/none is no program$"):
        Rack(rackd.SAMPLE, program="/none")


def test_variable_that_names_no_program(tmp_path, monkeypatch):
    monkeypatch.setenv("RACKD", str(tmp_path))
    with pytest.raises(NoProgram, match="see the variable RACKD"):
        Rack(rackd.SAMPLE)


def test_program_that_cannot_start(tmp_path, monkeypatch):
    monkeypatch.setattr(tempfile, "tempdir", str(tmp_path))
    with pytest.raises(RackFault, match="cannot start"):
        Rack(rackd.SAMPLE, program=executable(tmp_path / "text", "#!/none\n"))
    assert names_in(tmp_path, "*") == ["text"]
