"""The examples of examples/serve: a rack, a master in Python, and a bridge for a stack that speaks to a serial port."""
import contextlib
import os
import signal
import subprocess

import pytest

from support.clients import answer_to, connect_socket, exchange, free_ports, open_master, wait_for
from support.processes import PATIENCE, run_program
from support.racks import rack
from support.servers import PR_SET_PDEATHSIG, libc
from support.telegrams import ACCEPTED, fresh_diagnosis, slave_diag


def test_rack(serve, top):
    """Only the ports of the rack are other ones here: the system chooses those of a test."""
    text = (top / "examples/serve/rack.toml").read_text(encoding="utf-8")
    for port in ("7101", "7201", "7102", "7202"):
        assert text.count(port) == 1
        text = text.replace(port, "0")
    server = serve(text)
    assert sorted(server.ports) == [1, 2]
    with connect_socket(server.ports[2].listen) as refused:
        refused.sendall(b"\x03")
        assert refused.recv(1) == b"", "master 3 is one of line 1 only"
    for number, address in [(1, 3), (2, 2)]:
        session = open_master(server.ports[number].listen, address)
        assert exchange(session, slave_diag(address, 5)) == fresh_diagnosis(address, 5)
    with server.operator(1) as operator:
        assert answer_to(operator, "step") == "stepped 1"
        assert answer_to(operator, "show 6") == "show 6 WaitPrm none in 0001 out 0000 wd off"
    with server.operator(2) as operator:
        assert answer_to(operator, "step") == "stepped 1"
        assert answer_to(operator, "show 6") == "refused NoStation"


def test_master(serve, top):
    server = serve(rack())
    done = run_program([top / "examples/serve/master.py", server.ports[1].listen])
    assert done == (0, """\
master 1 exchanges data with slave 5
outputs 1234, inputs 0000
outputs 5678, inputs 0000
master 2 sees that master 1 holds slave 5
master 2 is refused: RS: not for this master, or not now
""", "")


@pytest.fixture
def bridge(top):
    """The path of the bridge."""
    try:
        for end in os.openpty():
            os.close(end)
    except OSError:
        pytest.skip("a pseudo terminal is missing")
    return top / "examples/serve/serial-bridge.py"


@contextlib.contextmanager
def running_bridge(bridge, path, address, port):
    """Runs a bridge until the end of the context, once its path is there."""
    process = subprocess.Popen([bridge, path, str(address), str(port)], stdin=subprocess.DEVNULL, stderr=subprocess.PIPE,
                               preexec_fn=lambda: libc.prctl(PR_SET_PDEATHSIG, signal.SIGKILL))
    try:
        wait_for(lambda: path.exists() or process.poll() is not None)
        assert process.poll() is None, process.stderr.read().decode()
        yield process
    finally:
        process.kill()
        process.wait()
        process.stderr.close()


def read_all(descriptor, count):
    """Returns the next octets of a terminal."""
    octets = b""
    while len(octets) < count:
        octets += os.read(descriptor, count - len(octets))
    return octets


# Slave_Diag of master 3, and its reply of a slave that master 1 holds. Slave 6 is none of the line.
ASKS, HELD_BY_1 = "6805056885836d3c3eef16", "680b0b688385083e3c0004000180a1b016"
ASKS_NOBODY = "6805056886836d3c3ef016"


def test_bridge(serve, bridge, tmp_path):
    """A stack opens the terminal, closes it and opens it again. A slave that isn't there gives no reply."""
    server, path = serve(rack()), tmp_path / "serial"
    with server.master(1) as master:
        master.bring_up(5, 0x80A1, b"\x21\x11")
    with running_bridge(bridge, path, 3, server.ports[1].listen) as process:
        for _ in range(2):
            terminal = os.open(path, os.O_RDWR | os.O_NOCTTY)
            # The reply to the last request comes first, so none has come to the request before it.
            for asks in (ASKS, ASKS_NOBODY + ASKS):
                os.write(terminal, bytes.fromhex(asks))
                assert read_all(terminal, 17).hex() == HELD_BY_1
            os.close(terminal)
        process.terminate()
        assert process.wait(PATIENCE) == 0
        assert process.stderr.read() == b""
    assert not os.path.lexists(path)


def test_bridge_of_a_rack_that_ends(serve, bridge, tmp_path):
    server, path = serve(rack()), tmp_path / "serial"
    with running_bridge(bridge, path, 3, server.ports[1].listen) as process:
        server.kill()
        assert process.wait(PATIENCE) == 1
        assert process.stderr.read() == b"serial-bridge: the rack has ended the session\n"
    assert not os.path.lexists(path)


# Words of the bridge, and why it ends. Master 3 has a session at the port.
REFUSED_BRIDGES = {
    "address-of-no-master": ("{other} 300 {port}", "ADDRESS is 0 to 126, and not '300'"),
    "too-few-words": ("{other} 3", "usage: serial-bridge.py PATH ADDRESS PORT"),
    "address-that-has-a-session": ("{other} 3 {port}",
                                   "master 3 is not accepted at port {port}: it is no master of the line, or has a session"),
    "path-that-is-there": ("{file} 2 {port}", "{file} can't be made: File exists"),
    "port-of-nobody": ("{other} 2 {free}", "port {free}: Connection refused"),
}


@pytest.mark.parametrize("words, cause", REFUSED_BRIDGES.values(), ids=REFUSED_BRIDGES)
def test_bridge_that_is_refused(serve, bridge, tmp_path, words, cause):
    """It ends, and another bridge still has its path and its session."""
    server, file, path = serve(rack()), tmp_path / "file", tmp_path / "serial"
    file.write_text("a file", encoding="ascii")
    places = {"file": file, "other": tmp_path / "other", "port": server.ports[1].listen, "free": free_ports(1)[0]}
    with running_bridge(bridge, path, 3, server.ports[1].listen):
        done = run_program([bridge, *(word.format(**places) for word in words.split())])
        assert done == (1, "", f"serial-bridge: {cause.format(**places)}\n")
        assert file.read_text(encoding="ascii") == "a file"
        terminal = os.open(path, os.O_RDWR | os.O_NOCTTY)
        os.write(terminal, slave_diag(3, 5))
        assert read_all(terminal, 17) == fresh_diagnosis(3, 5)
        os.close(terminal)
    with connect_socket(server.ports[1].listen) as other:
        other.sendall(b"\x02")
        assert other.recv(1) == ACCEPTED
