"""`rackd serve --audit FOLDER --endless`: lines that go on behind place 65,536, and the texts of their parts."""
import re
import signal
import socket

import pytest

from audit.dialogue import ANSWERED, Speakers, line_of, texts_of
from audit.endless import MASTERS, SMALL_PARTS, assert_cut_at_rows, part_paths, rack_of_sixteen, resident, tokens, whole_text
from rackd import frames
from rackd.master import MASTER, SET_PRM
from support.audit_texts import contents, part_name, whole_rows
from support.clients import answer_to, connect, connect_socket, exchange, open_master, receive, wait_for
from support.loads import SilentLoad, finish, start
from support.racks import rack, usual_rack
from support.telegrams import ACCEPTED, chk_cfg, fresh_diagnosis, slave_diag
from support.watched_writes import WatchedWrites

# The ticks that are more than an ordinary line has places.
TICKS = 70_000
# The KiB of memory that may become resident behind a fifth of the events: pages of stacks and buffers that were not used
# before. The entries themselves would be 80 megabytes.
SLACK = 1024


def test_files_and_output(serve, run, tmp_path, assert_legal):
    """Standard output has `ready` only, and the text, of version 3, is that of an ordinary line but for its header."""
    folder = tmp_path / "audit"
    server = serve(rack(line_of(2)), "--sessions", "2", "--audit", folder, "--endless")
    speakers = Speakers(server, 2)
    for step in ANSWERED:
        speakers.take(step)
    speakers.close()
    connect(server.ports[2].operator).close()
    done = server.wait()
    assert (done.status, done.output) == (0, "")
    assert done.errors.endswith("served 2 sessions of masters and 2 of operators\n")
    *_, text = texts_of(2, ANSWERED)
    assert contents(folder) == {part_name(1, line=2): text.replace(b"rack-audit 2", b"rack-audit 3")}
    part, ordinary = folder / part_name(1, line=2), tmp_path / "ordinary"
    assert_legal(server.rack, part, entries=text.count(b"\n") - 1)
    ordinary.write_bytes(text)
    explained = run("explain", server.rack, part)
    assert explained.status == 0
    assert explained == run("explain", server.rack, ordinary)


def serve_past_the_last_place(serve, folder):
    """Serves 70,000 ticks behind the lock of a slave, which is still held then, and a halt by the operator, behind which nothing
    changes any more. Returns the rack file and the rows of the log."""
    server = serve(usual_rack(), "--audit", folder, *SMALL_PARTS, "--log")
    master, ticks = open_master(server.ports[1].listen, 1), connect(server.ports[1].operator)
    # a watchdog of 255 * 255 units
    lock = frames.request(5, 1, 0x5D, bytes.fromhex("88ffff0b80a101"), SET_PRM, MASTER)
    assert exchange(master, lock) == ACCEPTED
    for _ in range(TICKS // 1000):
        ticks.send(b"tick 0\n" * 1000)
        assert receive(ticks, 9 * 1000) == b"released\n" * 1000
    ticks.close()
    operator = server.operator()
    assert operator.owned(1) == [5]
    assert exchange(master, chk_cfg(1, 5, 0x7D)) == ACCEPTED
    assert operator.halt() == [5]
    assert answer_to(operator, "tick 1") == "refused Halted"
    master.close()
    late = connect_socket(server.ports[1].listen)
    late.sendall(b"\x02")
    assert late.recv(1) == ACCEPTED
    late.sendall(slave_diag(2, 5))
    late.shutdown(socket.SHUT_WR)
    # its session ends once it has taken all octets
    assert late.recv(1) == b""
    # a signal ends the rack at once, also if rows of its log wait to be written
    wait_for(lambda: "halted, by its operator\n" in server.errors())
    server.send_signal(signal.SIGTERM)
    return server.rack, server.wait().errors


def test_past_the_last_place_of_an_ordinary_line(serve, run, tmp_path, assert_legal):
    folder, old = tmp_path / "audit", tmp_path / "version-2"
    served, errors = serve_past_the_last_place(serve, folder)
    assert len(re.findall("line 1: halted, by its operator\n", errors)) == 1
    parts, text = whole_text(folder)
    assert_cut_at_rows(parts)
    assert len(parts) > 1
    assert re.findall(r"line 1 goes on in (.*)\n", errors) == [str(path) for path in part_paths(folder)[1:]]
    assert text.endswith(f"{TICKS + 3} halt | none | released 5\n".encode())
    assert_legal(served, *part_paths(folder), entries=TICKS + 3)
    old.write_bytes(text.replace(b"rack-audit 3", b"rack-audit 2", 1))
    judged = run("check", served, old)
    assert (judged.status, judged.output) == (1, "not the policy 65537\n"), "the same as a text of an ordinary line"


@pytest.mark.parametrize("events", [200_000, pytest.param(5_000_000, marks=pytest.mark.slow)], ids=["200-thousand", "5-million"])
def test_memory_does_not_grow(serve, tmp_path, assert_legal, events):
    """Sixteen masters send events for long on a line of 1,000 places. The text has each event."""
    server = serve(rack_of_sixteen(), "--audit", tmp_path / "audit", "--endless", "--part", "4")
    loads = [SilentLoad(server, master, tokens(master), events=events // len(MASTERS)) for master in MASTERS]
    start(loads)
    wait_for(lambda: sum(load.answered for load in loads) >= events // 5, within=600)
    early = resident(server)
    for load in loads:
        load.join(600)
    finish(loads)
    late, sent = resident(server), sum(load.answered for load in loads)
    server.kill()
    assert late <= early + SLACK
    parts, text = whole_text(tmp_path / "audit")
    assert sent >= events - len(MASTERS)
    assert_cut_at_rows(parts, 4)
    assert text.count(b"\n") == sent + 1
    assert_legal(server.rack, *part_paths(tmp_path / "audit"), entries=sent)


def test_entries_that_wait_for_a_writer(serve, tmp_path, assert_legal):
    """No entry is forgotten before its row is written: sixteen masters send more than a read and a cutter hold, and an operator
    steps, on a line of two places, while writes are held up."""
    watch, folder = WatchedWrites(0.25), tmp_path / "audit"
    server = serve(rack_of_sixteen(capacity=2), "--audit", folder, *SMALL_PARTS, before=watch.ask)
    sessions, operator = [open_master(server.ports[1].listen, master) for master in MASTERS], connect(server.ports[1].operator)
    for session in sessions:
        # what gets no reply, in telegrams of one octet
        session.send(ACCEPTED * 1_000)
    operator.send(b"step\n")
    wait_for(lambda: watch.writes >= 5)
    watch.delay = 0
    assert receive(operator, len(b"stepped 2\n")) == b"stepped 2\n"
    for session, master in zip(sessions, MASTERS):
        assert exchange(session, slave_diag(master, 5)) == fresh_diagnosis(master, 5)
    assert server.process.poll() is None
    rows = len(MASTERS) * 1_001 + 2
    _, text = whole_text(folder)
    assert whole_rows(text).count(b"\n") == rows + 1
    assert_legal(server.rack, *part_paths(folder), entries=rows)
