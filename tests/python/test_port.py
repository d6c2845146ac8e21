"""The adapter for stacks that speak to a serial port, with a small stack of that kind and calls of its own."""
import select
import threading
import time

import pytest

from rackd import SessionEnded

from support.clients import wait_for
from support.package_runs import CFG, IDENT
from support.premises import measured, suppose, tried_again
from support.processes import PATIENCE
from support.sleeping import threads

# The first telegram of docs/guide/01-first-master.md, and the reply to it.
SLAVE_DIAG = bytes.fromhex("6805056885816d3c3eed16")
DIAGNOSIS = bytes.fromhex("680b0b688185083e3c020500ff80a1af16")


class SerialStack:
    """The lowest layer of a stack that knows serial ports only: it reads a frame octet by octet, and never waits."""

    def __init__(self, port):
        self.port = port
        port.baudrate = 500_000
        port.bytesize, port.parity, port.stopbits = 8, "E", 1
        port.timeout, port.xonxoff, port.rtscts, port.dsrdtr = 0, False, False, False
        port.flushInput()
        port.flushOutput()

    def ask(self, telegram):
        """Sends a telegram, and returns the frame that replies."""
        self.port.write(telegram)
        self.port.flush()
        octets, until = b"", time.monotonic() + PATIENCE
        while time.monotonic() < until:
            octets += self.port.read(1)
            if octets[:1] == b"\xe5" or len(octets) > 3 and octets[0] == 0x10 and len(octets) == 6:
                return octets
            if len(octets) >= 4 and octets[0] == 0x68:
                octets += self.port.read(octets[1] + 6 - len(octets))
                if len(octets) == octets[1] + 6:
                    return octets
        return octets


@pytest.fixture
def port(line):
    """A port of master 1, which waits long."""
    port = line.port(1)
    port.timeout = PATIENCE
    return port


def write_once_read(port, count):
    """Starts a thread that writes a Slave_Diag once a read that goes on has read this number of octets. Returns it."""
    def write():
        wait_for(lambda: len(port._buffer) == count)
        port.write(SLAVE_DIAG)

    later = threading.Thread(target=write)
    later.start()
    return later


def wait_until_blocked(thread):
    """Waits until a thread of this process sleeps, though nothing keeps it from going on."""
    def is_blocked():
        before = threads("self")[str(thread.native_id)]
        time.sleep(0.02)
        return before == threads("self")[str(thread.native_id)] and before[0] == "S"

    wait_for(is_blocked)


def test_serial_stack_comes_to_data_exchange(port, line):
    stack = SerialStack(port)
    assert stack.ask(SLAVE_DIAG) == DIAGNOSIS
    for telegram, reply in (
            ("680c0c6885815d3d3e8802050b80a1019a16", "e5"), ("6807076885817d3e3e21113116", "e5"),
            ("6805056805015d1234a916", "68050568010508" "00000e16"), ("6805056805017d1234c916", "68050568010508" "00000e16"),
            ("6804046805015d127516", "100105010716")):
        assert stack.ask(bytes.fromhex(telegram)).hex() == reply
    assert line.operator().owned(1) == [5]


def test_read_waits_for_all_octets(port):
    assert port.write(SLAVE_DIAG) == len(SLAVE_DIAG)
    later = write_once_read(port, len(DIAGNOSIS))
    assert port.read(2 * len(DIAGNOSIS)) == 2 * DIAGNOSIS
    later.join()


def test_read_ends_after_its_timeout(port):
    port.timeout = 0.1
    begun = time.monotonic()
    assert port.read(5) == b""
    assert time.monotonic() - begun >= 0.1
    port.write(SLAVE_DIAG)
    wait_for(lambda: port.in_waiting == len(DIAGNOSIS))
    begun = time.monotonic()
    assert port.read(len(DIAGNOSIS) + 1) == DIAGNOSIS
    assert time.monotonic() - begun >= 0.1


@tried_again
def test_read_without_waiting(port):
    port.timeout = 0
    with measured() as time_of:
        assert port.read(5) == b""
    suppose(time_of.held_up < 0.5, f"this process was held up for {time_of.held_up:.1f} s")
    assert time_of.seconds < 2


def test_read_without_a_limit(port):
    port.timeout = None
    later = write_once_read(port, 0)
    assert port.read(17) == DIAGNOSIS
    later.join()


def test_octets_in_waiting(port):
    assert (port.in_waiting, port.inWaiting()) == (0, 0)
    port.write(SLAVE_DIAG)
    wait_for(lambda: port.in_waiting == 17)
    assert port.read(1) == DIAGNOSIS[:1]
    assert (port.in_waiting, port.inWaiting()) == (16, 16)
    assert (port.read(4), port.in_waiting) == (DIAGNOSIS[1:5], 12)
    assert (port.read_all(), port.in_waiting) == (DIAGNOSIS[5:], 0)


@pytest.mark.parametrize("drop", ["flushInput", "reset_input_buffer"])
def test_input_is_dropped(port, drop):
    port.write(SLAVE_DIAG)
    wait_for(lambda: port.in_waiting == 17)
    assert port.read(1) == DIAGNOSIS[:1]
    getattr(port, drop)()
    assert port.in_waiting == 0


def test_other_ways_to_read(port):
    port.write(SLAVE_DIAG)
    room = bytearray(4)
    assert (port.readinto(room), bytes(room)) == (4, DIAGNOSIS[:4])
    assert port.read_until(b"\xff") == DIAGNOSIS[4:13]
    assert port.read_until(b"\xff", 2) == DIAGNOSIS[13:15]
    assert port.read(2) == DIAGNOSIS[15:]


def test_select_sees_octets(port):
    assert select.select([port], [], [], 0)[0] == []
    port.write(SLAVE_DIAG)
    assert select.select([port], [], [], PATIENCE)[0] == [port]


def test_close_and_open(port, line):
    port.write(bytes.fromhex("680c0c6885816d3d3e8802050b80a101aa16"))
    assert port.read(1) == b"\xe5"
    port.write(SLAVE_DIAG)
    wait_for(lambda: port.in_waiting == 17)
    port.close()
    assert (port.is_open, port.isOpen()) == (False, False)
    for call in (port.read, port.flush, port.inWaiting, lambda: port.write(b"\0")):
        with pytest.raises(SessionEnded):
            call()
    port.close()
    port.open()
    assert port.is_open
    # nothing is left of the reply before; the slave is still held
    port.timeout = 0
    assert (port.read(1), line.operator().owned(1)) == (b"", [5])


def test_an_open_port_stays_open(port):
    port.write(SLAVE_DIAG)
    assert port.read(1) == DIAGNOSIS[:1]
    port.open()
    assert port.read(16) == DIAGNOSIS[1:]


def test_context_manager(line):
    with line.port(2) as port:
        assert port.is_open
    assert not port.is_open
    with port:
        assert port.is_open


def test_close_ends_a_read(port):
    port.timeout, ends = None, []

    def read():
        try:
            port.read(1)
        except SessionEnded as ended:
            ends.append(ended)

    reader = threading.Thread(target=read, daemon=True)
    reader.start()
    wait_until_blocked(reader)
    port.close()
    reader.join(PATIENCE)
    assert len(ends) == 1


def test_the_master_is_that_of_the_port(port, line, master_of):
    assert port.name == f"rackd:{line.listen}:1"
    with line.port(2) as other:
        other.timeout = PATIENCE
        other.write(bytes.fromhex("6805056885826d3c3eee16"))
        # the diagnosis for master 2, whose address is one more
        assert other.read(17) == bytes.fromhex("680b0b688285083e3c020500ff80a1b016")
    master_of(line, 2).bring_up(5, IDENT, CFG)
