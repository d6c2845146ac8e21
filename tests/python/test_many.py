"""Many racks at once, and runs side by side in one folder."""
import concurrent.futures

import pytest

import rackd
from rackd import Rack

from support.package_runs import CFG, IDENT, names_in, run_python, runs
from support.processes import PATIENCE
from support.racks import rack as rack_text

FIFTY = 50
# Starts five racks one after another, whose journals have as many ticks as a word says.
RUN = """
import rackd, sys
number = int(sys.argv[1])
for _ in range(5):
    with rackd.Rack('rack.toml', folder='kept') as rack:
        for _ in range(number):
            rack.line(1).operator().tick(number)
        journal = rack.line(1).journal()
        assert [entry.event.words.split()[0] for entry in journal] == [str(number)] * number
"""


@pytest.fixture
def fifty():
    """Fifty racks at once, and the threads that started them."""
    with concurrent.futures.ThreadPoolExecutor(FIFTY) as threads:
        racks = list(threads.map(lambda _: Rack(rackd.SAMPLE), range(FIFTY)))
        yield racks, threads
        list(threads.map(lambda rack: rack.close(), racks))
    assert [runs(rack.pid) for rack in racks] == [False] * FIFTY


def bring_up(line):
    """Brings slave 5 of a line up, and returns its inputs."""
    master = line.master(1)
    master.timeout = PATIENCE
    master.bring_up(5, IDENT, CFG)
    return master.data_exchange(5, b"\0\0")


def test_fifty_at_once(fifty):
    racks, threads = fifty
    assert [runs(rack.pid) for rack in racks] == [True] * FIFTY
    lines = [rack.line(1) for rack in racks]
    assert len({port for line in lines for port in (line.listen, line.operator_port)}) == 2 * FIFTY
    list(threads.map(lambda number: lines[number].operator().input(5, bytes([0, number])), range(FIFTY)))
    assert list(threads.map(bring_up, lines)) == [bytes([0, number]) for number in range(FIFTY)]


def test_parallel_runs_in_one_folder(tmp_path):
    work = tmp_path / "work"
    work.mkdir()
    (work / "rack.toml").write_text(rack_text(), encoding="ascii")
    with concurrent.futures.ThreadPoolExecutor(4) as threads:
        done = list(threads.map(lambda number: run_python(work, "-c", RUN, number, TMPDIR=str(tmp_path)), range(2, 6)))
    assert [(run.status, run.errors) for run in done] == [(0, "")] * 4
    assert names_in(work, "*") == ["kept", "rack.toml"]
    assert len(names_in(work / "kept")) == 20
