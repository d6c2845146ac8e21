"""A port that a test plays in place of a line, for one connection at a time."""
import select
import socket
import struct
import time

from support.processes import PATIENCE


class PlayedPort:
    """A port of 127.0.0.1 at which the test listens. `connection` is the connection that was accepted last."""

    def __init__(self):
        self.listener = socket.create_server(("127.0.0.1", 0))
        self.number = self.listener.getsockname()[1]
        self.connection, self._octets = None, b""

    def __enter__(self):
        return self

    def __exit__(self, *_):
        self.end()

    def accept(self):
        """Waits for a connection, and accepts it."""
        assert select.select([self.listener], [], [], PATIENCE)[0], "nobody connects"
        self.connection, _ = self.listener.accept()
        self.connection.setsockopt(socket.IPPROTO_TCP, socket.TCP_NODELAY, 1)
        self.connection.settimeout(PATIENCE)
        self._octets = b""
        return self

    def end(self):
        """Closes the connection and the port."""
        for one in self.listener, self.connection:
            if one is not None:
                one.close()

    def reset(self):
        """Ends the connection by a reset, as if octets had not been read."""
        self.connection.setsockopt(socket.SOL_SOCKET, socket.SO_LINGER, struct.pack("ii", 1, 0))
        self.end()

    def send(self, octets):
        self.connection.sendall(octets)

    def _read(self, until):
        left = until - time.monotonic()
        assert left > 0 and select.select([self.connection], [], [], left)[0], f"nothing comes behind {self._octets[-200:]}"
        try:
            more = self.connection.recv(65536)
        except ConnectionError:
            more = b""
        self._octets += more
        return more

    def take(self, count):
        """Returns the next octets: this number, and fewer only if the connection ends."""
        until = time.monotonic() + PATIENCE
        while len(self._octets) < count and self._read(until):
            pass
        octets, self._octets = self._octets[:count], self._octets[count:]
        return octets

    def row(self):
        """Returns the octets of the next row, without its LF."""
        until = time.monotonic() + PATIENCE
        while b"\n" not in self._octets:
            assert self._read(until), f"the connection has ended with {self._octets}"
        row, _, self._octets = self._octets.partition(b"\n")
        return row

    def command(self):
        """Returns the next row that is neither empty nor a comment."""
        row = b""
        while not row or row.startswith(b"#"):
            row = self.row()
        return row

    def answer(self, row):
        """Sends a row of text."""
        self.send(row.encode() + b"\n")

    def so_far(self):
        """Returns what has come and was not taken, without waiting."""
        if select.select([self.connection], [], [], 0)[0]:
            self._read(time.monotonic() + PATIENCE)
        return self._octets

    def rest(self):
        """Returns all that was not taken, once the other end has closed the connection."""
        until = time.monotonic() + PATIENCE
        while self._read(until):
            pass
        octets, self._octets = self._octets, b""
        return octets
