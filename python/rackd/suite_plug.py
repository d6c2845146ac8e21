"""A relay between masters and one line of several: another line in its place is a bus whose devices were exchanged."""
from __future__ import annotations

import os
import select
import socket
import threading
from typing import Optional

from .connection import Connection, open_session
from .faults import RackError

# Seconds that a master may take to send its address.
ADDRESS_TIME = 10.0


class Plug:
    """Listens at the TCP port `listen`, for one master at a time, and connects it with the port of a line."""

    def __init__(self, port: int) -> None:
        """Begins to listen, and connects masters with the port `listen` of a line."""
        self._port = port
        self._closed = False
        self._ends = os.pipe()
        self._socket = socket.create_server(("127.0.0.1", 0))
        self.listen: int = self._socket.getsockname()[1]
        self._thread = threading.Thread(target=self._run, daemon=True)
        self._thread.start()

    def put(self, port: int) -> None:
        """Connects masters with the port of another line, also the one that is connected now."""
        self._port = port
        os.write(self._ends[1], b"\0")

    def close(self) -> None:
        """Ends the connection of a master, and listens no longer."""
        if not self._closed:
            self._closed = True
            os.write(self._ends[1], b"\0")
            self._thread.join()
            self._socket.close()
            for end in self._ends:
                os.close(end)

    def _run(self) -> None:
        while not self._closed:
            if self._comes(self._socket.fileno()):
                client, _ = self._socket.accept()
                with client:
                    try:
                        self._serve(client)
                    except (RackError, OSError):
                        # the line or the master has ended its connection, and the other one ends with it
                        pass

    def _comes(self, *descriptors: int, timeout: Optional[float] = None) -> Optional[int]:
        """Waits for octets, and returns which descriptor has them; None after `timeout`, `put` and `close`."""
        ready, _, _ = select.select([*descriptors, self._ends[0]], [], [], timeout)
        if self._ends[0] in ready:
            os.read(self._ends[0], 1)
            return None
        return ready[0] if ready else None

    def _session(self, address: int) -> Connection:
        return open_session(self._port, address, f"master {address} of port {self._port}")

    def _serve(self, client: socket.socket) -> None:
        """Passes on what comes, both ways, until one end closes."""
        client.setsockopt(socket.IPPROTO_TCP, socket.TCP_NODELAY, 1)
        first = client.recv(1) if self._comes(client.fileno(), timeout=ADDRESS_TIME) else b""
        if not first:
            return
        session = self._session(first[0])
        try:
            client.sendall(b"\xe5")
            while not self._closed:
                ready = self._comes(client.fileno(), session.fileno())
                if ready is None:
                    session.close()
                    session = self._session(first[0])
                elif ready == client.fileno():
                    octets = client.recv(65536)
                    if not octets:
                        return
                    session.send(octets)
                else:
                    client.sendall(session.receive(0))
        finally:
            session.close()
