"""A row that can't be written whole: the program ends, and nobody gets an answer without a row."""
import re
import resource
import signal

import pytest

from audit.dialogue import line_of
from support.audit_texts import header, text_name, whole_rows
from support.clients import connect
from support.loads import ExchangeLoad, InputLoad
from support.premises import measured, suppose, tried_again
from support.racks import rack, usual_rack
from support.watched_writes import WatchedWrites

# The bytes that a file may have: some dozens of rows; and less than a header.
SOME_ROWS, NO_HEADER = 4000, 5
# The seconds in which the program ends, and before which no session that says nothing is closed by the clock; this process may be
# held up for so long meanwhile.
ENDING, HELD_UP = 5, 1
# How a file is limited: its size, or the number of rows that the device takes once the server is ready.
SIZE, ROWS = "size", "rows"
CASES = [("master", SIZE, SOME_ROWS, []), ("operator", SIZE, SOME_ROWS, ["--sessions", "50"]),
         ("master", SIZE, SOME_ROWS, ["--sessions", "50"]), ("master", ROWS, 20, []), ("operator", ROWS, 20, []),
         ("master", ROWS, 0, [])]


def serve_until_full(serve, folder, client, limit, most, words):
    """Serves lines 1 and 2 until a file is full, while masters and an operator idle and others say nothing at all.

    Returns the load of a master or an operator of line 1, the rack file, and how the server ended.
    """
    watch = WatchedWrites() if limit == ROWS else None
    limits = [(resource.RLIMIT_FSIZE, most)] if limit == SIZE else []
    server = serve(rack(line_of(1), line_of(2)), "--audit", folder, *words, limits=limits, ignores=[signal.SIGXFSZ],
                   before=None if watch is None else watch.ask)
    if watch is not None:
        watch.full = watch.writes + most
    load = InputLoad(server) if client == "operator" else ExchangeLoad(server, 1, 5, 6)
    idle = [server.master(2, line=number) for number in (1, 2)] + [connect(server.ports[number].listen) for number in (1, 2)]
    idle += [server.operator(2)] + ([] if client == "operator" else [server.operator(1)])
    assert idle[4].owned(1) == []
    with measured() as time:
        load.start()
        done = server.wait()
    load.finish()
    suppose(time.seconds < ENDING or time.held_up < HELD_UP, f"this process was held up for {time.held_up:.1f} s")
    assert time.seconds < ENDING, "it does not end while others idle"
    return load, server.rack, done


@pytest.mark.parametrize("client, limit, most, words", CASES, ids=[
    "limited-master", "limited-operator", "limited-with-sessions", "full-device-master", "full-device-operator",
    "full-device-at-the-first-row"])
@tried_again
def test_full_while_lines_are_served(serve, tmp_path, assert_legal_text, client, limit, most, words):
    """Who was answered has its row, and the texts come on standard output all the same."""
    folder = tmp_path / f"audit-{len(list(tmp_path.iterdir()))}"
    load, served, done = serve_until_full(serve, folder, client, limit, most, words)
    assert done.status == 5
    assert [row for row in done.errors.splitlines() if "cannot write" in row] == [f"rackd: cannot write {folder / text_name(1)}"]
    before, *texts = re.split(rb"(?m)^(?=rack-audit )", done.output.encode())
    assert before == b""
    assert [text[:text.find(b"\n") + 1] for text in texts] == [header(1), header(2)]
    for text in texts:
        assert_legal_text(served, text)
    file = (folder / text_name(1)).read_bytes()
    load.assert_kept(whole_rows(file))
    load.assert_kept(texts[0])
    assert file == texts[0][:len(file)]
    assert len(whole_rows(file)) < len(texts[0]), "no row is missing in the file"
    if limit == ROWS:
        assert file == whole_rows(file)
        assert file.count(b"\n") == most + 1
    assert (folder / text_name(2)).read_bytes() == texts[1]


@pytest.mark.parametrize("limit", [SIZE, ROWS], ids=["limited", "full-device"])
def test_full_at_the_header(run, tmp_path, limit):
    """If not even the header has room, the program ends before it is ready."""
    (tmp_path / "rack.toml").write_text(usual_rack(), encoding="ascii")

    def limit_size():
        signal.signal(signal.SIGXFSZ, signal.SIG_IGN)
        resource.setrlimit(resource.RLIMIT_FSIZE, (NO_HEADER, NO_HEADER))

    prepare = limit_size if limit == SIZE else WatchedWrites(full=0).ask
    done = run("serve", tmp_path / "rack.toml", "--audit", tmp_path / "audit", preexec_fn=prepare)
    assert done == (2, "", f"rackd: cannot make {tmp_path / 'audit' / text_name(1)}\n  a row was written only in part\n")


def test_limit_on_file_sizes_ends_the_program(serve, tmp_path, assert_legal_text):
    """If SIGXFSZ is not ignored, the system ends the program by it. What was answered is in the file, as after a kill."""
    server = serve(usual_rack(), "--audit", tmp_path / "audit", limits=[(resource.RLIMIT_FSIZE, SOME_ROWS)])
    load = ExchangeLoad(server, 1, 5, 6)
    load.start()
    done = server.wait()
    load.finish()
    assert (done.status, done.output) == (-signal.SIGXFSZ, "")
    file = (tmp_path / "audit" / text_name(1)).read_bytes()
    assert len(file) == SOME_ROWS
    load.assert_kept(whole_rows(file))
    assert_legal_text(server.rack, whole_rows(file))
