"""Numbers of audit texts: above all others of their line, also if racks start again or at the same moment."""
import os
import random
import re
import threading
import time

import pytest

from audit.endless import (SMALL_PARTS, last_place, long_telegrams, part_numbers, part_paths, rack_of_sixteen, serve_parts,
                           wait_for_part, without_cut_end)
from support.audit_texts import contents, names, part_name, text_name, whole_rows, write_files
from support.clients import wait_for
from support.loads import SilentLoad, finish, start
from support.processes import PATIENCE
from support.racks import usual_rack
from support.telegrams import fresh_diagnosis, slave_diag
from support.watched_calls import CallWatch

# How often a rack is killed and started again, and two racks are started at once.
RESTARTS, STARTS = 20, 20
HIGHEST = 2**32 - 1
KEEPS_TWO = *SMALL_PARTS, "--keep", "2"


def text_numbers(folder):
    """Returns the numbers of the texts of line 1, each once, ascending."""
    found = (re.fullmatch(r"line-1-(\d+)(?:\.\d{6,})?\.audit", name) for name in names(folder))
    return sorted({int(name[1]) for name in found if name})


def stamps(folder):
    """Returns what shows that a file of a folder was changed or replaced: its size, its time and its number."""
    found = {path.name: path.lstat() for path in folder.iterdir() if path.suffix != ".times"}
    return {name: (state.st_size, state.st_mtime_ns, state.st_ino) for name, state in found.items()}


def assert_legal_texts(run, rack, folder, numbers):
    """Asserts that each of these texts is legal from its first file on, but for what a kill leaves."""
    for number in numbers:
        paths = part_paths(folder, number)
        if len(paths) > 1 or whole_rows(paths[0].read_bytes()):
            done = run("check", rack, *without_cut_end(paths))
            assert done.status == 0 and done.output.startswith("legal "), f"text {number}: {done}"


def ask_once(server, slave=5):
    """Asks for the diagnosis of a slave on line 1."""
    with server.master(1) as master:
        assert master.raw(slave_diag(1, slave)) == fresh_diagnosis(1, slave)


def test_texts_in_one_file_and_in_parts(serve, tmp_path):
    """The number of a text is above that of each other one, in one file or in parts, and nothing there is changed."""
    folder = tmp_path / "audit"
    earlier = {text_name(1): b"mine\n", part_name(1, number=3): b"other\n", "line-1-2x.audit": b"no text\n"}
    write_files(folder, earlier)
    for words in ["--endless"], [], ["--endless"]:
        server = serve(usual_rack(), "--audit", folder, *words)
        ask_once(server)
        server.kill()
    new = {part_name(1, number=4): 3, text_name(1, 5): 2, part_name(1, number=6): 3}
    after = contents(folder)
    assert after.keys() == earlier.keys() | new.keys()
    assert {name: after[name] for name in earlier} == earlier
    for name, version in new.items():
        assert after[name].startswith(b"rack-audit %d line 1\n1 req" % version), name


@pytest.mark.parametrize("words, new", [([], text_name(1, 4)), (["--endless"], part_name(1, number=4))],
                         ids=["one-file", "parts"])
def test_above_a_part_whose_first_part_is_gone(serve, tmp_path, words, new):
    """Names that are none of an audit text don't count."""
    folder = tmp_path / "audit"
    others = [part_name(2, number=3), "line-1-7.audit.old", "line-1-08.audit", "line-1-9.00001.audit", "line-1-9.0000001.audit",
              "line-1-9.000000.audit", "line-257-9.audit", "line-2-12.audit"]
    write_files(folder, {name: b"mine\n" for name in others})
    with open(os.fsencode(folder) + b"/line-1-10\xff.audit", "wb"):
        pass
    before = names(folder)
    serve(usual_rack(), "--audit", folder, *words)
    assert names(folder) == sorted([*before, new])


def test_highest_number(serve, run, tmp_path):
    """Below the highest number the last one is used. If a text has it, in one file or in parts, no text is begun."""
    folder, path = tmp_path / "audit", tmp_path / "audit" / text_name(1, HIGHEST)
    write_files(folder, {text_name(1, HIGHEST - 1): b"mine\n"})
    server = serve(usual_rack(), "--audit", folder)
    server.kill()
    assert text_numbers(folder) == [HIGHEST - 1, HIGHEST]
    refused = (2, "", f"rackd: cannot make {path}\n  an audit text of the line has the highest number; choose another folder\n")
    before = contents(folder)
    assert run("serve", server.rack, "--audit", folder) == refused
    assert contents(folder) == before
    path.rename(folder / part_name(7, number=HIGHEST))
    assert run("serve", server.rack, "--audit", folder) == refused


def test_above_deleted_parts(serve, run, tmp_path, assert_legal):
    """A rack that starts again in a folder whose first parts were deleted begins a text with the next number.

    The files of the text before it stay as they are.
    """
    folder = tmp_path / "audit"
    served = serve_parts(serve, folder, 5, "--keep", "2", stay=2)
    before = stamps(folder)
    assert part_name(1) not in before
    server = serve(rack_of_sixteen(), "--audit", folder, *KEEPS_TWO)
    assert text_numbers(folder) == [1, 2]
    # as many parts as the text before it had, and some more
    path = folder / part_name(max(part_numbers(folder)) + 3, number=2)
    load = SilentLoad(server, 100, long_telegrams(100), until=path.exists)
    load.start()
    load.finish()
    assert path.exists() and server.process.poll() is None
    server.kill()
    after = stamps(folder)
    assert {name: after.get(name) for name in before} == before
    assert_legal(served.rack, *served.paths, entries=last_place(served.parts[-1]))
    assert_legal_texts(run, served.rack, folder, [2])


def test_restarts_under_load(serve, run, tmp_path):
    """A rack that is killed under load and started again never uses a number twice. Each text is legal from its first file on."""
    folder, chance, before = tmp_path / "audit", random.Random(20), {}
    for number in range(1, RESTARTS + 1):
        server = serve(rack_of_sixteen(), "--audit", folder, *KEEPS_TWO)
        assert text_numbers(folder) == list(range(1, number + 1))
        after = stamps(folder)
        assert {name: after.get(name) for name in before} == before
        loads = [SilentLoad(server, master, long_telegrams(master)) for master in (100, 101)]
        start(loads)
        wait_for_part(folder, chance.randrange(2, 6), number)
        time.sleep(chance.uniform(0, 0.01))
        server.kill()
        finish(loads)
        before = stamps(folder)
    assert_legal_texts(run, server.rack, folder, range(1, RESTARTS + 1))


def test_two_racks_at_once(start_server, tmp_path):
    """Two racks that start in one folder at the same moment never get the same number, in one file or in parts.

    They don't get that of a text either of which a later part is left.
    """
    folder, left = tmp_path / "audit", part_name(2)
    write_files(folder, {left: b"mine\n"})
    for turn in range(STARTS):
        kinds = [[], ["--endless"]] if turn % 2 == 0 else [["--endless"], []]
        servers = [start_server(usual_rack(), "--audit", folder, *words) for words in kinds]
        for server, slave in zip(servers, (5, 6)):
            server.wait_until_ready()
            ask_once(server, slave)
        for server in servers:
            server.kill()
    texts = contents(folder)
    assert texts.pop(left) == b"mine\n"
    assert len(texts) == 2 * STARTS
    assert len(text_numbers(folder)) == 2 * STARTS + 1, "two texts have the same number"
    assert {name: text.count(b"\n") for name, text in texts.items()} == dict.fromkeys(texts, 2)


class HeldCreation(CallWatch):
    """Holds up the first call of a program that is to create a new file in a folder, until `released` is set."""

    # openat, and the flags of a file that must be new
    CALLS, IS_NEW = (257,), os.O_CREAT | os.O_EXCL

    def __init__(self, folder):
        self.held, self.released, self._folder = threading.Event(), threading.Event(), os.fsencode(folder)
        super().__init__()

    def asked(self, question):
        if question.words[2] & self.IS_NEW == self.IS_NEW and not self.released.is_set() and self._is_there(question):
            self.hold(question, released=self.released)
            self.held.set()
        else:
            self.go_on(question)

    def _is_there(self, question):
        """Returns whether the path of the call is in the folder."""
        with open(f"/proc/{question.thread}/mem", "rb", buffering=0) as memory:
            return os.pread(memory.fileno(), len(self._folder), question.words[1]) == self._folder


@pytest.mark.parametrize("own, others, until", [
    ([], ["--endless"], 1), (["--endless"], [], None), (["--endless"], KEEPS_TWO, 4), ([], [], None),
    (["--endless"], ["--endless"], None),
], ids=["other-in-parts", "other-in-one-file", "first-part-deleted", "both-in-one-file", "both-in-parts"])
def test_rack_that_is_held_up_at_its_file(serve, start_server, tmp_path, own, others, until):
    """A rack that is held up before it makes its first file finds that another one has taken its number meanwhile."""
    folder = tmp_path / "audit"
    folder.mkdir()
    creation = HeldCreation(folder)
    held = start_server(rack_of_sixteen(), "--audit", folder, *own, before=creation.ask)
    assert creation.held.wait(PATIENCE), "the creation of a file is not held up"
    server = serve(rack_of_sixteen(), "--audit", folder, *others)
    if until == 4:
        load = SilentLoad(server, 100, long_telegrams(100), until=(folder / part_name(4)).exists)
        load.start()
        load.finish()
        wait_for(lambda: not (folder / part_name(1)).exists())
    creation.released.set()
    held.wait_until_ready()
    assert held.process.poll() is None and server.process.poll() is None
    assert text_numbers(folder) == [1, 2]
    second = [name for name in names(folder) if name.startswith("line-1-2.")]
    assert second == [part_name(1, number=2) if own else text_name(1, 2)]
    # The file that was made with the number of the other text is gone, unless it is that of the other text.
    first = folder / (part_name(1) if own else text_name(1))
    assert first.exists() == (until is None and bool(own) == bool(others))
