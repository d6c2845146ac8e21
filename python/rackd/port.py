"""A port object with the names of pyserial's `Serial`, for stacks that speak to a serial port."""
from __future__ import annotations

import threading
import time
from types import TracebackType
from typing import Any, Optional, Type

from .connection import Connection, Ended, open_session, still_there
from .faults import SessionEnded


class Port:
    """A session of a master that reads and writes octets as pyserial's `Serial` does.

    `timeout` is that of `read` in seconds: None waits for all octets, 0 returns what is there. Settings of the line
    (`baudrate`, `parity` and so on) are stored and change nothing: a rack has no bus timing. One thread may read while
    another writes. If the rack ends, `read`, `write` and `in_waiting` raise its RackFault.
    """

    def __init__(self, port: int, address: int, ended: Ended = still_there) -> None:
        """Opens the port. Raises NotAccepted if the line does not accept the master."""
        self.port = self.portstr = self.name = f"rackd:{port}:{address}"
        self.timeout: Optional[float] = None
        self.write_timeout: Optional[float] = None
        self.inter_byte_timeout: Optional[float] = None
        self.baudrate, self.bytesize, self.parity, self.stopbits = 9600, 8, "E", 1.0
        self.xonxoff = self.rtscts = self.dsrdtr = self.exclusive = False
        self.rts = self.dtr = self.cts = self.dsr = self.cd = True
        self.ri = self.break_condition = False
        self.rs485_mode: Any = None
        self._tcp, self._address, self._ended = port, address, ended
        self._buffer = bytearray()
        self._taking = threading.Lock()
        self._connection: Optional[Connection] = None
        self.open()

    def __enter__(self) -> Port:
        self.open()
        return self

    def __exit__(self, kind: Optional[Type[BaseException]], error: Optional[BaseException],
                 trace: Optional[TracebackType]) -> None:
        self.close()

    # ---- opening

    def open(self) -> None:
        """Opens the port after `close`, as another session of this master. An open port stays as it is."""
        if not self.is_open:
            self._buffer.clear()
            self._connection = open_session(self._tcp, self._address, self.name, self._ended)

    def close(self) -> None:
        """Ends the session. The master keeps the slaves that it holds."""
        connection, self._connection = self._connection, None
        if connection:
            connection.close()

    @property
    def is_open(self) -> bool:
        """Whether the port is open."""
        return self._connection is not None

    def isOpen(self) -> bool:  # pylint: disable=invalid-name
        """Returns whether the port is open."""
        return self.is_open

    def fileno(self) -> int:
        """Returns the descriptor, for `select`. Octets that `in_waiting` has counted are no longer behind it."""
        return self._session().fileno()

    def readable(self) -> bool:
        """Returns True."""
        return True

    def writable(self) -> bool:
        """Returns True."""
        return True

    def seekable(self) -> bool:
        """Returns False."""
        return False

    # ---- reading

    def read(self, size: int = 1) -> bytes:
        """Returns `size` octets, or fewer if no more come within `timeout`."""
        until = None if self.timeout is None else time.monotonic() + self.timeout
        self._session()
        while len(self._buffer) < size:
            self._buffer += self._session().receive(None if until is None else until - time.monotonic())
            if until is not None and time.monotonic() >= until:
                break
        return self._take(size)

    def _take(self, size: int) -> bytes:
        with self._taking:
            octets = bytes(self._buffer[:size])
            del self._buffer[:size]
        return octets

    def readinto(self, room: bytearray) -> int:
        """Reads into a buffer as `read` does, and returns the number of octets."""
        octets = self.read(len(room))
        room[:len(octets)] = octets
        return len(octets)

    def read_all(self) -> bytes:
        """Returns the octets that have come, without waiting."""
        return self._take(self.in_waiting)

    def read_until(self, expected: bytes = b"\n", size: Optional[int] = None) -> bytes:
        """Returns the octets up to the expected ones, or fewer if `size` are read or `timeout` has passed."""
        octets = b""
        while not octets.endswith(expected) and (size is None or len(octets) < size):
            octet = self.read(1)
            if not octet:
                break
            octets += octet
        return octets

    @property
    def in_waiting(self) -> int:
        """The number of octets that `read` returns without waiting."""
        self._buffer += self._session().receive(0)
        return len(self._buffer)

    def inWaiting(self) -> int:  # pylint: disable=invalid-name
        """Returns the number of octets that `read` returns without waiting."""
        return self.in_waiting

    def reset_input_buffer(self) -> None:
        """Drops the octets that have come."""
        self.read_all()

    flushInput = reset_input_buffer

    # ---- writing

    def write(self, octets: bytes) -> int:
        """Sends all octets, and returns how many there are."""
        self._session().send(bytes(octets))
        return len(octets)

    @property
    def out_waiting(self) -> int:
        """The number of octets that are not sent yet: none."""
        return 0

    def flush(self) -> None:
        """Returns at once: `write` has sent all octets."""
        self._session()

    def reset_output_buffer(self) -> None:
        """Drops nothing: `write` has sent all octets."""
        self._session()

    flushOutput = reset_output_buffer

    def _session(self) -> Connection:
        connection = self._connection
        if connection is None:
            raise SessionEnded(f"{self.name} is not open")
        return connection
