"""Files of `rackd serve --audit`: which ones are made and what they have; what is there is left as it is."""
import os
import re

import pytest

from audit.dialogue import ANSWERED, Speakers, asks, line_of, texts_of
from support.audit_texts import contents, header, names, text_name, write_files
from support.clients import connect, exchange, open_master
from support.racks import rack, usual_rack
from support.telegrams import fresh_diagnosis, global_control, slave_diag, token
from support.watched_writes import WatchedWrites

# A diagnosis of slave 5, 6 or 7, and its row.
DIAGNOSES = {slave: asks(1, slave_diag(1, slave), fresh_diagnosis(1, slave), "WaitPrm none", "Done") for slave in (5, 6, 7)}


def serve_dialogue(serve, *words):
    """Returns how a server ends after the dialogue on line 2, while line 7, with three places and that of its halt, halts.

    The last telegrams get no reply, and their clients close at once. Each port takes two connections.
    """
    server = serve(rack(line_of(7, capacity=4), line_of(2)), "--sessions", "2", *words)
    speakers = Speakers(server, 2)
    for step in ANSWERED:
        speakers.take(step)
    speakers.close()
    last = open_master(server.ports[7].listen, 1)
    assert exchange(last, global_control(1) + token(1) + slave_diag(1, 5)) == fresh_diagnosis(1, 5)
    last.send(slave_diag(1, 6))
    last.close()
    for port in (server.ports[7].listen, server.ports[2].operator, server.ports[7].operator, server.ports[7].operator):
        connect(port).close()
    return server.wait()


def without_times(errors):
    """Returns rows of standard error without their times of day."""
    return re.sub(r"\d\d:\d\d:\d\d\.\d\d\d", "TIME", errors)


def test_files_and_output(serve, tmp_path):
    """At the end standard output is as without --audit, and each file is the audit text of its line."""
    folder = tmp_path / "audit"
    plain, done = serve_dialogue(serve), serve_dialogue(serve, "--audit", folder)
    assert (plain.status, done.status) == (0, 0)
    assert done.output == plain.output
    assert without_times(done.errors) == without_times(plain.errors)
    assert done.errors.endswith("served 4 sessions of masters and 4 of operators\n")
    files = contents(folder)
    assert set(files) == {text_name(2), text_name(7)}
    *_, text = texts_of(2, ANSWERED)
    assert files[text_name(2)] == text
    assert files[text_name(7)].splitlines()[-1] == b"4 halt | none | released"
    assert (files[text_name(2)] + files[text_name(7)]).decode() == done.output


@pytest.mark.parametrize("delay", [None, 0.2], ids=["quick", "held-up-writes"])
def test_header_before_ready(serve, tmp_path, delay):
    """The header of each line is in its file before `ready` is written."""
    options = {} if delay is None else {"before": WatchedWrites(delay).ask}
    serve(usual_rack(1, 4), "--audit", tmp_path / "audit", **options)
    assert contents(tmp_path / "audit") == {text_name(1): header(1), text_name(4): header(4)}


def serve_once(serve, folder, slave, numbers):
    """Serves these lines with this folder, and asks on each of them for the diagnosis of a slave.

    Asserts that each file that was there is as before, and that there is one more for each line, with that request. Returns the
    names of the new files.
    """
    before = contents(folder) if folder.exists() else {}
    server = serve(usual_rack(*numbers), "--audit", folder)
    for number in numbers:
        with server.master(1, line=number) as master:
            assert master.raw(slave_diag(1, slave)) == fresh_diagnosis(1, slave)
    server.kill()
    after = contents(folder)
    new = {name: text for name, text in after.items() if name not in before}
    assert {name: text for name, text in after.items() if name in before} == before
    assert sorted(new.values()) == sorted(text for number in numbers for text in texts_of(number, [DIAGNOSES[slave]]))
    return sorted(new)


def test_texts_of_several_runs(serve, tmp_path):
    """The number of a text is above all others of its line: no gap is filled."""
    folder = tmp_path / "audit"
    assert serve_once(serve, folder, 5, [1, 2]) == [text_name(1), text_name(2)]
    assert serve_once(serve, folder, 6, [1]) == [text_name(1, 2)]
    assert serve_once(serve, folder, 7, [2, 1]) == [text_name(1, 3), text_name(2, 2)]
    (folder / text_name(1, 2)).unlink()
    assert serve_once(serve, folder, 6, [1, 2]) == [text_name(1, 4), text_name(2, 3)]


def test_text_of_a_run_that_still_runs(serve, tmp_path, assert_legal):
    """Another run leaves the text of a run that still runs as it is, and this one goes on."""
    folder = tmp_path / "audit"
    first = serve(usual_rack(), "--audit", folder)
    master = first.master(1)
    master.raw(slave_diag(1, 5))
    assert serve_once(serve, folder, 6, [1]) == [text_name(1, 2)]
    master.raw(slave_diag(1, 5))
    assert_legal(first.rack, folder / text_name(1), entries=2)


def test_folder_is_made(serve, tmp_path):
    """A folder is made with those above it, or used if it is there."""
    folder = tmp_path / "a" / "b b" / "c"
    assert serve_once(serve, folder, 5, [1]) == [text_name(1)]
    assert serve_once(serve, folder, 6, [1]) == [text_name(1, 2)]


@pytest.mark.parametrize("folder, path, cause", [
    ("file", "file", "this is a file; '--audit' expects a folder, which may be missing"),
    ("file/under", "file/under", "a part of the path before the last '/' is not a folder"),
    ("/proc/rackd", "/proc/rackd", "no such file or folder"),
    ("/proc", f"/proc/{text_name(1)}", "no such file or folder"),
], ids=["file-in-its-place", "file-above-it", "folder-cannot-be-made", "file-cannot-be-made"])
def test_folder_that_cannot_be_had(run, tmp_path, folder, path, cause):
    """The program ends with the path and the cause before it is ready, and changes nothing."""
    (tmp_path / "file").write_bytes(b"mine\n")
    (tmp_path / "rack.toml").write_text(usual_rack(), encoding="ascii")
    done = run("serve", tmp_path / "rack.toml", "--audit", tmp_path / folder)
    assert done == (2, "", f"rackd: cannot make {tmp_path / path}\n  {cause}\n")
    assert contents(tmp_path).keys() == {"file", "rack.toml"}
    assert (tmp_path / "file").read_bytes() == b"mine\n"


def test_nothing_is_overwritten(serve, tmp_path):
    """No file of an earlier run is changed, nor anything else that has the name of one."""
    folder, nothing = tmp_path / "audit", tmp_path / "nothing"
    earlier = {text_name(1): header(1) + b"1 in 5", text_name(1, 3): b"", text_name(1, "02"): b"mine\n",
               text_name(11): header(11)}
    write_files(folder, earlier)
    (folder / text_name(1, 2)).mkdir()
    os.symlink(nothing, folder / text_name(1, 4))
    os.symlink(folder / text_name(1), folder / text_name(1, 5))
    server = serve(usual_rack(), "--audit", folder)
    assert server.master(1).raw(slave_diag(1, 5)) == fresh_diagnosis(1, 5)
    assert {name: (folder / name).read_bytes() for name in earlier} == earlier
    assert not os.path.lexists(nothing)
    assert names(folder) == sorted([*earlier, *(text_name(1, number) for number in (2, 4, 5, 6))])
    assert [(folder / text_name(1, 6)).read_bytes()] == list(texts_of(1, [DIAGNOSES[5]]))
