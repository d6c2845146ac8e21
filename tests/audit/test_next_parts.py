"""What an endless line does at the edge of a part: kills, full disks, a path that is taken, and memory that is refused."""
import errno
import random
import resource
import signal
import threading
import time

import pytest

from audit.endless import (MASTERS, MEGABYTE, SMALL_PARTS, assert_cut_at_rows, long_telegrams, part_paths, rack_of_sixteen,
                           rows_of_master, wait_for_part, whole_text, without_cut_end)
from rackd.master import RD_INP
from support.audit_texts import part_name, whole_rows
from support.clients import wait_for
from support.loads import ExchangeLoad, SilentLoad, finish, start
from support.racks import line, rack, slave
from support.watched_calls import CallWatch
from support.watched_writes import WatchedWrites

# The moments of kills, and how many of them are just behind the edge of a part; the others come after some bytes of the text.
MOMENTS, AT_EDGES = 50, 30
MOST_BYTES = 3 * MEGABYTE
# The end of the last rows of standard error.
NO_SPACE, IS_THERE = "a row was written only in part", "a file or folder of this name exists already"


def kill_over_edges(serve, folder, moment):
    """Kills a server at a moment over the edges of parts.

    Returns the rack file, a load whose replies are compared, and the other loads.
    """
    server, chance = serve(rack_of_sixteen(), "--audit", folder, *SMALL_PARTS), random.Random(moment)
    exact = ExchangeLoad(server, 100, 5, 6)
    loads = [SilentLoad(server, master, long_telegrams(master)) for master in (101, 102, 103)]
    start([exact, *loads])
    if moment < AT_EDGES:
        path = folder / part_name(2 + moment % 2)
        wait_for(path.exists, every=0)
        time.sleep(chance.choice((0, 0, chance.uniform(0, 0.001))))
    else:
        size = chance.randrange(1, MOST_BYTES)
        wait_for(lambda: sum(path.stat().st_size for path in part_paths(folder)) >= size, every=0)
    server.kill()
    finish([exact, *loads])
    return server.rack, exact, loads


@pytest.mark.parametrize("moments", [
    range(0, 4), range(AT_EDGES, AT_EDGES + 4),
    *(pytest.param(moments, marks=pytest.mark.slow) for moments in (range(4, AT_EDGES), range(AT_EDGES + 4, MOMENTS))),
], ids=["edges", "anywhere", "all-edges", "all-anywhere"])
def test_kills_over_the_edges_of_parts(serve, tmp_path, assert_legal, assert_legal_text, moments):
    """What each client was answered is there, in order, in a legal text whose parts end with whole rows."""
    edges = 0
    for moment in moments:
        folder = tmp_path / f"audit-{moment}"
        served, exact, loads = kill_over_edges(serve, folder, moment)
        parts, text = whole_text(folder)
        assert_cut_at_rows([part for part in parts if part])
        text = whole_rows(text)
        exact.assert_kept(text)
        for load in loads:
            assert rows_of_master(text, load.master) >= load.answered, f"master {load.master} at moment {moment}"
        assert_legal_text(served, text)
        assert_legal(served, *without_cut_end(part_paths(folder)), entries=text.count(b"\n") - 1)
        edges += len(parts) - 1
        for path in part_paths(folder):
            path.unlink()
    assert edges >= sum(moment < AT_EDGES for moment in moments)


def serve_until_it_ends(serve, folder, spoil=None, **options):
    """Serves a master with long telegrams until the server ends. `spoil` is called once it is ready.

    Returns the server, the load, and how the server ended.
    """
    server = serve(rack_of_sixteen(), "--audit", folder, *SMALL_PARTS, **options)
    if spoil is not None:
        spoil()
    load = SilentLoad(server, 100, long_telegrams(100))
    load.start()
    done = server.wait()
    load.finish()
    return server, load, done


def assert_cannot_write(done, path, cause):
    """Asserts that a server has ended since it can't write to a file, for this cause."""
    assert (done.status, done.output) == (5, "")
    assert done.errors.splitlines()[-2:] == [f"rackd: cannot write {path}", f"  {cause}"]


def test_something_at_the_path_of_the_next_part(serve, tmp_path, assert_legal):
    """The program ends at the edge, the text ends with a whole row, and what is there is left as it is."""
    folder = tmp_path / "audit"
    first, second = folder / part_name(1), folder / part_name(2)
    server, load, done = serve_until_it_ends(serve, folder, lambda: second.write_bytes(b"mine\n"))
    assert_cannot_write(done, second, IS_THERE)
    assert second.read_bytes() == b"mine\n"
    text = first.read_bytes()
    assert_cut_at_rows([text, b"-"])
    rows = rows_of_master(text, 100)
    assert rows >= load.answered
    assert_legal(server.rack, first, entries=rows)


@pytest.mark.parametrize("limit", [MEGABYTE - 1, MEGABYTE], ids=["before", "at"])
def test_disk_is_full_at_the_edge(serve, tmp_path, limit):
    folder = tmp_path / "audit"
    _, load, done = serve_until_it_ends(serve, folder, limits=[(resource.RLIMIT_FSIZE, limit)], ignores=[signal.SIGXFSZ])
    assert_cannot_write(done, folder / part_name(1), NO_SPACE)
    parts, text = whole_text(folder)
    assert [len(part) for part in parts] == [limit]
    assert rows_of_master(whole_rows(text), 100) >= load.answered


@pytest.mark.parametrize("writes", [0, 1, 30], ids=["at-its-first-write", "at-its-second-write", "at-a-later-write"])
def test_disk_is_full_behind_the_edge(serve, tmp_path, assert_legal, writes):
    """The second part can't be written, from its head on or later."""
    folder, watch = tmp_path / "audit", WatchedWrites(full=writes, end=".000002.audit")
    server, load, done = serve_until_it_ends(serve, folder, before=watch.ask)
    assert_cannot_write(done, folder / part_name(2), NO_SPACE)
    parts, text = whole_text(folder)
    assert len(parts) == 2
    rows = whole_rows(text).count(b"\n") - 1
    assert rows >= load.answered
    assert_legal(server.rack, *without_cut_end(part_paths(folder)), entries=rows)


class RefusedMemory(CallWatch):
    """Refuses a program memory while `refuses` is set, and counts how often it did."""

    BRK = 12
    # mmap, mprotect, mremap, brk
    CALLS = (9, 10, 25, BRK)

    def __init__(self):
        self.refuses, self.refused = threading.Event(), 0
        super().__init__()

    def asked(self, question):
        if not self.refuses.is_set():
            self.go_on(question)
            return
        self.refused += 1
        # brk has no error: it returns 0 if memory is refused
        self.refuse(question, 0 if question.call == self.BRK else errno.ENOMEM)


# A rack whose heads are long: 64 slaves with 244 octets of inputs, and how often a long reply is read while memory is refused.
CFG, MANY_SLAVES, READS = bytes([0x1F] * 15 + [0x13]), range(5, 69), 2000


def serve_long_heads(serve, folder, **options):
    """Serves a line of 16 masters and 64 slaves, each of which is in data exchange and was read by each master.

    Returns the server and the masters.
    """
    slaves = [slave(address, cfg=CFG.hex()) for address in MANY_SLAVES]
    text = rack(line(1, *slaves, masters=list(MASTERS), capacity=16416), workers=16)
    server = serve(text, "--audit", folder, *SMALL_PARTS, **options)
    masters = [server.master(address) for address in MASTERS]
    for address in MANY_SLAVES:
        masters[0].set_prm(address, 0x80A1)
        masters[0].chk_cfg(address, CFG)
        masters[0].slave_diag(address)
    for master in masters:
        for address in MANY_SLAVES:
            assert len(master.srd(address, dsap=RD_INP)) == 244
    return server, masters


def test_memory_for_a_head_is_refused(serve, tmp_path, assert_legal):
    """All requests are answered, and the text goes on in its part. The next part begins once there is memory."""
    folder, memory = tmp_path / "audit", RefusedMemory()
    server, masters = serve_long_heads(serve, folder, before=memory.ask)
    assert [path.name for path in part_paths(folder)] == [part_name(1)]
    memory.refuses.set()
    for _ in range(READS):
        assert len(masters[-1].rd_inp(5)) == 244
    assert [path.name for path in part_paths(folder)] == [part_name(1)]
    assert (folder / part_name(1)).stat().st_size > 1.2 * MEGABYTE
    assert memory.refused > 0
    memory.refuses.clear()
    assert len(masters[-1].rd_inp(5)) == 244
    wait_for_part(folder, 2)
    assert len(masters[-1].rd_inp(5)) == 244
    server.send_signal(signal.SIGTERM)
    server.wait()
    paths = part_paths(folder)
    last = int(paths[1].read_bytes().splitlines()[-1].split(b" ")[0])
    assert_legal(server.rack, *paths, entries=last)
    assert_legal(server.rack, *paths[1:], entries=last)
