"""`--keep N`: only the newest parts of an endless text stay, and no reply waits for the deletion of an old one."""
import os
import signal
import subprocess
import threading

import pytest

from audit.dialogue import line_of
from audit.endless import (MASTERS, MEGABYTE, SMALL_PARTS, last_place, long_telegrams, part_number, part_numbers, part_paths,
                           rack_of_sixteen, resident, serve_parts, tokens, wait_for_newest, wait_for_part, without_cut_end)
from support.audit_texts import names, part_name, times_name, write_files
from support.clients import exchange, open_master, wait_for
from support.loads import SilentLoad, finish, start
from support.racks import rack
from support.telegrams import fresh_diagnosis, slave_diag
from support.watched_calls import CallWatch

KEEPS_TWO = *SMALL_PARTS, "--keep", "2"
# A part with which more old parts are due than the queue of those that are to be deleted has room for, which is 16: the first part
# is being deleted once the third one has its head.
MANY = 24
# How many requests are answered meanwhile at another line.
MEANWHILE = 1000


def test_newest_stay(serve, tmp_path, assert_legal):
    """Nothing else is deleted. The text has number 8, which is above that of another one."""
    folder = tmp_path / "audit"
    others = {part_name(1, number=7): b"other\n", part_name(1, line=2): b"another line's\n",
              "old-line-1-1.000001.audit": b"mine\n"}
    write_files(folder, others)
    server = serve(rack_of_sixteen(), "--audit", folder, *KEEPS_TWO)
    path = folder / part_name(6, number=8)
    load = SilentLoad(server, 100, tokens(100), until=path.exists)
    load.start()
    load.finish()
    wait_for(lambda: len(part_numbers(folder, 8)) == 2)
    # the file of times of a part is deleted behind it
    wait_for(lambda: 0 < len(list(folder.glob("*.times"))) <= 2)
    server.send_signal(signal.SIGTERM)
    server.wait()
    last = part_numbers(folder, 8)[-1]
    assert last >= 6
    stays = [part_name(last - 1, number=8), part_name(last, number=8)]
    assert names(folder) == sorted([*others, *stays])
    assert {path.name for path in folder.glob("*.times")} <= {times_name(name) for name in stays}
    assert {name: (folder / name).read_bytes() for name in others} == others
    paths = part_paths(folder, 8)
    assert_legal(server.rack, *paths, entries=last_place(paths[-1].read_bytes()))


@pytest.mark.parametrize("mask, mode", [(0o000, 0o644), (0o022, 0o644), (0o027, 0o640), (0o077, 0o600)],
                         ids=lambda mode: f"{mode:03o}")
def test_modes_of_files(serve, tmp_path, mask, mode):
    """The files have the mode that the umask leaves of 644."""
    before = os.umask(mask)
    try:
        served = serve_parts(serve, tmp_path / "audit", 2)
    finally:
        os.umask(before)
    assert len(served.paths) > 1
    assert {path.name: f"{path.stat().st_mode & 0o777:03o}" for path in served.paths} == {
        path.name: f"{mode:03o}" for path in served.paths}


def test_part_that_cannot_be_deleted(serve, tmp_path):
    """It stays, a row of the log says so, and the rack goes on."""
    folder = tmp_path / "audit"
    server = serve(rack_of_sixteen(), "--audit", folder, *KEEPS_TWO)
    first = folder / part_name(1)
    # a folder in its place cannot be deleted as a file
    first.rename(tmp_path / "first")
    first.mkdir()
    load = SilentLoad(server, 100, tokens(100), until=(folder / part_name(5)).exists)
    load.start()
    load.finish()
    wait_for_newest(folder, 2, others=1)
    wait_for(lambda: [row for row in server.errors().splitlines() if str(first) in row and "cannot delete" in row])
    assert first.is_dir()
    assert server.process.poll() is None


class HeldDeletions(CallWatch):
    """Holds up each deletion of a file by a program until `released` is set, or until `release` was called as often.

    `threads` has the threads of those that were held up.
    """

    # unlink, unlinkat
    CALLS = (87, 263)

    def __init__(self):
        self.threads, self.released, self._each = [], threading.Event(), []
        super().__init__()

    def asked(self, question):
        self._each.append(threading.Event())
        if self.released.is_set():
            self._each[-1].set()
        self.threads.append(question.thread)
        self.hold(question, released=self._each[-1])

    def release(self, count):
        """Waits until this number of deletions was asked for, and lets the last of them go on."""
        wait_for(lambda: len(self.threads) >= count)
        self._each[count - 1].set()

    def go_on_behind(self, count):
        """Waits until this number of deletions was asked for. The last of them stays held up, and all later ones go on."""
        wait_for(lambda: len(self.threads) >= count)
        self.released.set()
        for event in list(self._each)[count:]:
            event.set()

    def release_all(self):
        """Lets all deletions go on."""
        self.released.set()
        for event in list(self._each):
            event.set()


def test_deletion_that_is_held_up(serve, tmp_path):
    """No reply waits for the deletion of an old part, however many others wait for it. All of them are deleted in the end."""
    folder, deletions = tmp_path / "audit", HeldDeletions()
    text = rack(line_of(1, masters=list(MASTERS), capacity=1000), line_of(2), workers=24)
    server = serve(text, "--audit", folder, *KEEPS_TWO, before=deletions.ask)
    load, other = SilentLoad(server, 100, tokens(100)), open_master(server.ports[2].listen, 1)
    load.start()
    wait_for_part(folder, MANY)
    for turn in range(MEANWHILE):
        assert exchange(other, slave_diag(1, 5, 0x5D if turn % 2 else 0x7D)) == fresh_diagnosis(1, 5)
    wait_for_part(folder, part_numbers(folder)[-1] + 1)
    # only the thread that deletes is held up, at the first part
    assert len(deletions.threads) == 1
    assert part_numbers(folder)[0] == 1
    deletions.release_all()
    wait_for_part(folder, part_numbers(folder)[-1] + 4)
    wait_for_newest(folder, 2)
    assert server.process.poll() is None and load.fault is None


@pytest.mark.parametrize("deleted", [0, 1, MANY - 4])
def test_kill_while_a_deletion_is_held_up(serve, tmp_path, assert_legal, deleted):
    """Old parts are deleted in ascending order, also if more wait than the queue has room for: what a kill leaves has no gap."""
    folder, deletions = tmp_path / "audit", HeldDeletions()
    server = serve(rack_of_sixteen(), "--audit", folder, *KEEPS_TWO, before=deletions.ask)
    load = SilentLoad(server, 100, tokens(100))
    load.start()
    wait_for_part(folder, MANY)
    # the part, and then its file of times
    for count in range(1, 2 * deleted + 1):
        deletions.release(count)
    wait_for(lambda: part_numbers(folder)[0] > deleted)
    deletions.go_on_behind(2 * deleted + 1)
    wait_for_part(folder, MANY + 2)
    server.kill()
    finish([load])
    paths = without_cut_end(part_paths(folder))
    numbers = [part_number(path) for path in paths]
    assert numbers == list(range(deleted + 1, numbers[-1] + 1))
    assert_legal(server.rack, *paths, entries=last_place(paths[-1].read_bytes()))


def test_end_after_deletions(serve, tmp_path, assert_legal):
    """When all sessions have ended, the old parts that are due are deleted before the program ends, also those that wait for room in
    the queue."""
    folder, deletions = tmp_path / "audit", HeldDeletions()
    server = serve(rack_of_sixteen(), "--audit", folder, *KEEPS_TWO, "--sessions", "1", before=deletions.ask)
    server.operator().close()
    load = SilentLoad(server, 100, tokens(100, 100), until=(folder / part_name(MANY)).exists)
    load.start()
    load.finish()
    last = part_numbers(folder)[-1]
    assert part_numbers(folder) == list(range(1, last + 1))
    load.close()
    # the last deletions are held up one after another: the program is there until each of them is done
    for count in range(1, last - 1):
        if count in (1, MANY // 2, last - 2):
            assert_legal(server.rack, *part_paths(folder), entries=load.sent)
        # the part, and then its file of times
        deletions.release(2 * count - 1)
        wait_for(lambda: part_numbers(folder)[0] > count or server.process.poll() is not None)
        assert part_numbers(folder) == list(range(count + 1, last + 1))
        deletions.release(2 * count)
    done = server.wait()
    assert (done.status, done.output) == (0, "")
    assert part_numbers(folder) == [last - 1, last]


@pytest.mark.slow
def test_memory_over_many_parts(serve, tmp_path):
    """A rack that left 70 bytes behind for each of 2,000 parts would have some 120 KiB more at the end."""
    folder, parts, slack = tmp_path / "audit", 2000, 48
    server = serve(rack_of_sixteen(), "--audit", folder, *KEEPS_TWO)
    loads = [SilentLoad(server, master, long_telegrams(master)) for master in (100, 101)]
    start(loads)
    sizes = {}
    for part in parts // 10, parts:
        newest = 0
        while newest < part:
            # each part has its own time to begin
            wait_for(lambda: part_numbers(folder)[-1:] > [newest], every=0.02)
            newest = part_numbers(folder)[-1]
            assert all(load.is_alive() and load.fault is None for load in loads)
        sizes[part] = resident(server)
    assert sizes[parts] <= sizes[parts // 10] + slack


@pytest.fixture
def small_disk(tmp_path):
    """A disk of 64 megabytes."""
    disk = tmp_path / "disk"
    disk.mkdir()
    if subprocess.run(["mount", "-t", "tmpfs", "-o", "size=64m", "tmpfs", disk], capture_output=True, check=False).returncode:
        pytest.skip("this machine gives no disk to a test: mount is not allowed")
    yield disk
    subprocess.run(["umount", "-l", disk], check=True)


@pytest.mark.slow
def test_small_disk(serve, small_disk, assert_legal):
    """A disk of 64 megabytes holds a line for millions of events with '--keep 8' and parts of 4 megabytes."""
    folder, events = small_disk / "audit", 5_000_000
    server = serve(rack_of_sixteen(), "--audit", folder, "--endless", "--part", "4", "--keep", "8")
    loads = [SilentLoad(server, master, tokens(master), events=events // len(MASTERS)) for master in MASTERS]
    start(loads)
    for load in loads:
        load.join(600)
    finish(loads)
    assert server.process.poll() is None
    wait_for_newest(folder, 8)
    server.send_signal(signal.SIGTERM)
    server.wait()
    paths, sent = part_paths(folder), sum(load.answered for load in loads)
    assert sent >= events - len(MASTERS)
    assert part_number(paths[-1]) * 4 * MEGABYTE > 64 * MEGABYTE, "the disk would hold all parts"
    assert_legal(server.rack, *paths, entries=sent)
