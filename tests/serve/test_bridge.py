"""The serial bridge of the examples with a rack, and `rackd operate` at a port where only it could listen itself."""
import ctypes
import fcntl
import os
import select
import socket
import struct
import subprocess
import termios

import pytest

from support.clients import wait_for
from support.processes import PATIENCE
from support.racks import rack
from support.servers import libc
from support.telegrams import fresh_diagnosis, slave_diag

# The flag of a network that is up, and the calls that get and set flags.
UP, GET_FLAGS, SET_FLAGS, NEW_NETWORK = 1, 0x8913, 0x8914, 0x40000000


def speed_of(path):
    """Returns the speed of a serial port."""
    port = os.open(path, os.O_RDWR | os.O_NOCTTY)
    try:
        return termios.tcgetattr(port)[5]
    finally:
        os.close(port)


def exchange_at(path):
    """Opens a serial port with even parity as PROFIBUS has it, exchanges a telegram, closes it, and returns the reply."""
    port = os.open(path, os.O_RDWR | os.O_NOCTTY)
    try:
        settings = termios.tcgetattr(port)
        settings[0] = settings[1] = settings[3] = 0
        settings[2] = termios.CS8 | termios.CREAD | termios.CLOCAL | termios.PARENB
        settings[4] = settings[5] = termios.B19200
        termios.tcsetattr(port, termios.TCSANOW, settings)
        os.write(port, slave_diag(1, 5, 0x4D))
        reply = b""
        while len(reply) < len(fresh_diagnosis(1, 5)) and select.select([port], [], [], PATIENCE)[0]:
            reply += os.read(port, 100)
        return reply
    finally:
        os.close(port)


def test_bridge_is_opened_again(serve, top, tmp_path):
    """A stack opens the serial port of the example again and again, which has another speed whenever it is closed."""
    server, path = serve(rack()), tmp_path / "port"
    bridge = [top / "examples" / "serve" / "serial-bridge.py", path, 1, server.ports[1].listen]
    with subprocess.Popen([str(word) for word in bridge]) as bridging:
        try:
            wait_for(path.exists)
            for _ in range(3):
                assert exchange_at(path) == fresh_diagnosis(1, 5)
                wait_for(lambda: speed_of(path) == termios.B50)
        finally:
            bridging.terminate()
    assert not path.is_symlink()


def enter_own_network(port):
    """Gives this process a network of its own, in which every connection gets the same port."""
    if libc.unshare(NEW_NETWORK) != 0:
        raise OSError(ctypes.get_errno(), "no network")
    with socket.socket() as any_socket:
        name = struct.pack("16sh", b"lo", 0)
        flags, = struct.unpack_from("h", fcntl.ioctl(any_socket, GET_FLAGS, name + bytes(22)), 16)
        fcntl.ioctl(any_socket, SET_FLAGS, struct.pack("16sh", b"lo", flags | UP) + bytes(22))
    with open("/proc/sys/net/ipv4/ip_local_port_range", "w", encoding="ascii") as ports:
        ports.write(f"{port} {port}")


def test_nobody_listens_but_itself(program):
    """`operate` never speaks to itself, if the system gives it the very port that it connects to."""
    port = 40000
    try:
        operate = subprocess.Popen([program, "operate", str(port)], stdin=subprocess.DEVNULL, stdout=subprocess.PIPE,
                                   stderr=subprocess.PIPE, preexec_fn=lambda: enter_own_network(port))
    except (subprocess.SubprocessError, OSError):
        pytest.skip("there is no network of its own on this machine")
    with operate:
        try:
            _, errors = operate.communicate(timeout=PATIENCE)
        finally:
            operate.kill()
    assert (operate.returncode, errors) == (2, b"rackd: cannot connect to 40000\n  no program listens on this port\n")
