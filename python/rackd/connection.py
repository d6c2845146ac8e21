"""A TCP connection to a port of a line."""
from __future__ import annotations

import select
import socket
import time
from typing import Callable, Optional, Protocol

from .faults import NotAccepted, RackError, RackFault, SessionEnded

# Returns the fault of a rack that has ended, and None if the rack is still there.
Ended = Callable[[], Optional[RackFault]]
# Seconds that a master waits for its E5, and for which it tries again if its address is held: the session of a client
# that has just ended holds it a moment longer.
ANSWER_TIME, HELD_TIME = 5.0, 1.0


class Session(Protocol):
    """What a master or an operator sends octets by, and receives them from."""

    def send(self, octets: bytes) -> None:
        """Sends all octets."""

    def receive(self, timeout: Optional[float]) -> bytes:
        """Returns the octets that have come, or none after `timeout` seconds."""

    def close(self) -> None:
        """Ends the connection."""


def still_there() -> Optional[RackFault]:
    """Returns None: the end of a rack that somebody else started is not known here."""
    return None


class Connection:
    """A connection to a port of 127.0.0.1. If it ends with the rack, the exception is the rack's fault."""

    def __init__(self, port: int, name: str, ended: Ended = still_there) -> None:
        """Connects. `name` is what messages call this end, as in `master 2 of port 7101`."""
        self._name, self._ended, self._closed = name, ended, False
        try:
            self._socket = socket.create_connection(("127.0.0.1", port))
        except OSError as error:
            raise self._end(error.strerror or "no connection") from None
        # otherwise a telegram behind one that got no reply waits up to 50 ms in this socket
        self._socket.setsockopt(socket.IPPROTO_TCP, socket.TCP_NODELAY, 1)

    def _end(self, what: str) -> RackError:
        if self._closed:
            return SessionEnded(f"{self._name} was closed")
        return self._ended() or SessionEnded(f"{self._name}: {what}")

    def fileno(self) -> int:
        """Returns the descriptor, for `select`."""
        return self._socket.fileno()

    def send(self, octets: bytes) -> None:
        """Sends all octets."""
        try:
            self._socket.sendall(octets)
        except OSError as error:
            raise self._end(error.strerror or "the connection has ended") from None

    def receive(self, timeout: Optional[float]) -> bytes:
        """Returns the octets that have come, or none after `timeout` seconds. None waits without a limit."""
        octets = self.receive_or_end(timeout)
        if octets is None:
            raise self._end("the connection has ended")
        return octets

    def receive_or_end(self, timeout: Optional[float]) -> Optional[bytes]:
        """Returns the same, and None if the connection has ended."""
        waiting = select.poll()
        try:
            waiting.register(self._socket, select.POLLIN)
            if not waiting.poll(None if timeout is None else max(0.0, timeout) * 1000):
                return b""
            return self._socket.recv(65536, socket.MSG_DONTWAIT) or None
        except BlockingIOError:
            return b""
        except (OSError, ValueError):
            return None

    def close(self) -> None:
        """Ends the connection, also for a thread that waits for octets of it."""
        self._closed = True
        try:
            self._socket.shutdown(socket.SHUT_RDWR)
        except OSError:
            pass
        self._socket.close()


def open_session(port: int, address: int, name: str, ended: Ended = still_there) -> Connection:
    """Connects to the port `listen` of a line as the master with this address, 0 to 126, and returns the session.

    Raises NotAccepted if the line does not accept the master within a second.
    """
    until = time.monotonic() + HELD_TIME
    while True:
        connection = Connection(port, name, ended)
        connection.send(bytes([address]))
        answer = connection.receive_or_end(ANSWER_TIME)
        if answer == b"\xe5":
            return connection
        connection.close()
        if answer == b"":
            raise NotAccepted(f"{name}: no answer, all workers of the rack are busy")
        if time.monotonic() > until:
            # a cable accepts connections also after the end of the rack
            raise ended() or NotAccepted(f"{name}: it is no master of this line, or another session has its address")
        time.sleep(0.02)
