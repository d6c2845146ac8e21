"""The program `rackd cable` as a process of a test, and sessions of masters for what goes through it."""
import re
import socket
from pathlib import Path

from rackd import frames
from rackd.faults import NotAccepted
from rackd.master import STATUS

from support.clients import connect_socket, open_master, wait_for
from support.running import Running
from support.telegrams import ACCEPTED, slave_diag

# A slave that no rack of these tests has, and the master that asks for it.
NOBODY, MARKER = 126, 3


class Cable(Running):
    """A cable to the port of a line. It listens at a port that the system chooses, `listen`, and reads its orders from a pipe."""

    def __init__(self, program, folder, port, *words):
        folder.mkdir()
        self._ports, self._port = Path(folder, "ports"), port
        super().__init__([program, "cable", port, "--listen", 0, "--ports", self._ports, *words])
        self._marker = None
        self.listen = None

    def wait_until_ready(self):
        """Waits until it is ready, and reads its port."""
        assert self.output.row() == "ready"
        text = self._ports.read_text(encoding="ascii")
        found = re.fullmatch(rf"cable {self._port} listen (\d+)\n", text)
        assert found, f"the file of ports has {text!r}"
        self.listen = int(found[1])
        assert 0 < self.listen < 65536
        return self

    def order(self, line):
        """Writes a line to its standard input."""
        self.write(line.encode() + b"\n")

    def does(self, line):
        """Has it do what a line asks for, which is done at once."""
        self.order(line)
        assert self.output.row() == f"done {line}"

    def waits(self, line):
        """Orders a fault, and waits until the cable has read that: a line that is done at once is behind it."""
        self.order(line)
        self.does(f"on {NOBODY}")

    def faults(self):
        """Returns the rows on standard error that were not read yet, up to this moment: with --log, one for each fault.

        A request that is lost marks the moment. All answers on standard output have to be read before.
        """
        if self._marker is None:
            self._marker = open_session_soon(self.listen, MARKER)
        self.does(f"off {NOBODY}")
        self._marker.send(slave_diag(MARKER, NOBODY))
        mark = f"master {MARKER} request {NOBODY}: lost {slave_diag(MARKER, NOBODY).hex()} -> -"
        rows = []
        while (row := self.errors.row()) != mark:
            rows.append(row)
        self.does(f"on {NOBODY}")
        return rows

    def kill(self):
        if self._marker is not None:
            self._marker.close()
        super().kill()


def open_session_soon(port, address):
    """Returns the session of a master, once the line has seen the end of the one before, if it had one."""
    def opened():
        try:
            return open_master(port, address)
        except NotAccepted:
            return None

    return wait_for(opened)


def open_plain_session(port, address):
    """Returns the session of a master as a plain socket, once the line has accepted it."""
    def opened():
        connection = connect_socket(port)
        connection.sendall(bytes([address]))
        if take(connection, 1) == ACCEPTED:
            return connection
        connection.close()
        return None

    return wait_for(opened)


def take(connection, count):
    """Returns the next octets of a plain socket: this number, and fewer only if the connection ends."""
    octets = b""
    while len(octets) < count:
        try:
            more = connection.recv(count - len(octets))
        except ConnectionError:
            break
        if not more:
            break
        octets += more
    return octets


def rest(connection):
    """Ends the requests of a plain socket, and returns all that comes until the other end has closed it."""
    connection.shutdown(socket.SHUT_WR)
    octets = b""
    while more := connection.recv(65536):
        octets += more
    return octets


def poll(slave, master=1):
    """Returns an FDL status, which gets a reply without any state."""
    return frames.request(slave, master, STATUS)


def poll_reply(slave, master=1):
    """Returns the reply to an FDL status of a slave: a passive station that is ready."""
    return frames.request(master, slave, 0x00)
