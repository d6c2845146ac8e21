"""`--until-input-ends`: a rack ends with its input, in time and with its texts whole."""
import os
import signal
import subprocess
import sys
import threading
import time
from pathlib import Path

import pytest

from rackd.connection import Connection
from rackd.faults import SessionEnded
from support.clients import connect, exchange, has_ended, open_master, wait_for
from support.line_time import new_folder
from support.premises import measured, suppose, tried_again
from support.racks import line, rack
from support.telegrams import fresh_diagnosis, slave_diag

# Seconds in which sessions end once the input has.
ENDING = 0.2


@tried_again
def test_sessions_end(serve, run, tmp_path):
    """Sessions of masters and operators, and one without an address, end within 200 ms, and the texts come whole."""
    audit = new_folder(tmp_path)
    server = serve(rack(line(1, 5), line(2, 5)), "--until-input-ends", "--audit", audit, piped=True)
    sessions = [open_master(server.ports[1].listen, 1), open_master(server.ports[2].listen, 2), connect(server.ports[1].listen),
                connect(server.ports[2].operator)]
    sessions[3].send(b"show 5\n")
    assert sessions[3].receive(None).startswith(b"show 5 ")
    assert exchange(sessions[0], slave_diag(1, 5)) == fresh_diagnosis(1, 5)
    assert server.process.poll() is None
    with measured(has_ending=True) as machine:
        server.end_input()
        begun = time.monotonic()
        assert all(map(has_ended, sessions))
        late = time.monotonic() - begun
    done = server.wait()
    assert done.status == 0
    with pytest.raises(SessionEnded):
        Connection(server.ports[1].listen, "late")
    texts = [audit / f"line-{number}-1.audit" for number in (1, 2)]
    assert done.output == "".join(text.read_text() for text in texts)
    assert [run("check", server.rack, text).output for text in texts] == ["legal 1\n", "legal 0\n"]
    suppose(late <= ENDING or machine.held_up < ENDING / 4, f"processes had no processor for {machine.held_up:.3f} s")
    assert late <= ENDING


@tried_again
def test_session_ends_in_a_flood(serve, run, tmp_path):
    """A master that never pauses ends too, and each reply that it got has its row."""
    audit = new_folder(tmp_path)
    server = serve(rack(), "--until-input-ends", "--audit", audit, "--endless", piped=True)
    master, request, reply = open_master(server.ports[1].listen, 1), slave_diag(1, 5) * 4, len(fresh_diagnosis(1, 5))
    got, moments = [], []

    def ask():
        try:
            while True:
                master.send(request)
                got.append(len(master.receive(None)))
        except SessionEnded:
            moments.append(time.monotonic())

    asking = threading.Thread(target=ask)
    asking.start()
    wait_for(lambda: sum(got) > 1000 * reply)
    with measured(has_ending=True) as machine:
        server.end_input()
        begun = time.monotonic()
        asking.join(60)
    assert moments, "the session doesn't end"
    assert server.wait().output == ""
    checked = run("check", server.rack, *sorted(audit.glob("*.audit")))
    assert checked.status == 0
    assert 1000 < sum(got) // reply <= int(checked.output.split()[1])
    late = moments[0] - begun
    suppose(late <= ENDING or machine.held_up < ENDING / 4, f"processes had no processor for {machine.held_up:.3f} s")
    assert late <= ENDING


def test_input_has_ended_before(serve):
    """If the input has ended before, the rack ends at once, whichever of its threads is first."""
    for _ in range(30):
        server = serve(rack(line(1, 5), line(2, 5)), "--until-input-ends")
        done = server.wait()
        assert (done.status, done.output) == (0, "rack-audit 2 line 1\nrack-audit 2 line 2\n")


def test_input_is_ignored(serve):
    """What comes from the input does nothing, however much it is."""
    server = serve(rack(), "--until-input-ends", piped=True)
    master = open_master(server.ports[1].listen, 1)
    for _ in range(40):
        server.process.stdin.write(b"tick 9\nhalt\n" * 4_096)
    # More than a pipe has room for was read before this.
    assert exchange(master, slave_diag(1, 5)) == fresh_diagnosis(1, 5)
    server.end_input()
    assert has_ended(master)
    done = server.wait()
    assert (done.status, done.output.count("\n")) == (0, 2)


def test_sessions_end_first(serve):
    """With `--sessions` too, the rack ends with its sessions, though the input stays open."""
    server = serve(rack(), "--until-input-ends", "--sessions", 1, piped=True)
    open_master(server.ports[1].listen, 1).close()
    with server.operator() as operator:
        assert operator.ask("show 5").startswith("show 5 ")
    wait_for(lambda: server.process.poll() is not None)
    assert server.process.returncode == 0
    assert server.process.stdin is not None


def has_died(pid):
    """Returns whether a process is gone, or has ended and nobody has asked how."""
    try:
        return Path(f"/proc/{pid}/stat").read_text(encoding="ascii").rpartition(")")[2].split()[0] == "Z"
    except FileNotFoundError:
        return True


def test_rack_ends_with_a_runner_that_is_killed(program, tmp_path):
    """No rack is left when the program that started it is killed."""
    (tmp_path / "rack.toml").write_text(rack())
    runner = ("import subprocess, sys, time\n"
              "rack = subprocess.Popen(sys.argv[1:], stdin=subprocess.PIPE, stdout=subprocess.PIPE, stderr=subprocess.DEVNULL)\n"
              "print(rack.pid, rack.stdout.readline().decode(), flush=True)\n"
              "time.sleep(999)\n")
    command = [sys.executable, "-c", runner, program, "serve", tmp_path / "rack.toml", "--until-input-ends"]
    with subprocess.Popen([str(word) for word in command], stdout=subprocess.PIPE) as running:
        try:
            pid, ready = running.stdout.readline().decode().split()
            assert ready == "ready"
        finally:
            running.kill()
        try:
            wait_for(lambda: has_died(pid))
        finally:
            if not has_died(pid):
                os.kill(int(pid), signal.SIGKILL)
