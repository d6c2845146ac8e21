"""A proxy at the ports of the right program, for wrong programs that change what passes (tests/wrong_programs)."""
import contextlib
import os
import signal
import socket
import sys
import threading
from pathlib import Path

from support.stand_ins import copy_rest, start_right, write_octets


class Passing:
    """What a proxy does with the octets of a connection: nothing. Wrong programs change it.

    `kind` is `listen` for the port of masters, or `operator`. There is one for each connection. With `ENDS_AFTER_STOP` all
    connections end when the program goes on after it was stopped.
    """

    ENDS_AFTER_STOP = False

    def __init__(self, kind):
        self.kind = kind

    def sent(self, octets):
        """Returns what the program gets of octets that a client sends."""
        return octets

    def replied(self, octets):
        """Returns what a client gets of octets that the program sends."""
        return octets

    def ended(self):
        """Returns what a client gets when the program has ended the connection, before it ends for the client."""
        return b""


def copy_octets(source, target, change, end=lambda: b""):
    """Copies octets from one connection to the other until the first one ends, and then ends that direction of the other one."""
    with contextlib.suppress(OSError):
        while octets := source.recv(65536):
            target.sendall(change(octets))
    with contextlib.suppress(OSError):
        target.sendall(end())
        target.shutdown(socket.SHUT_WR)


def pass_connection(client, port, passing, connections):
    """Connects to the port of the program, and copies both directions until both have ended."""
    with client, socket.create_connection(("127.0.0.1", port)) as server:
        connections += [client, server]
        for connection in (client, server):
            connection.setsockopt(socket.IPPROTO_TCP, socket.TCP_NODELAY, 1)
        back = threading.Thread(target=copy_octets, args=(server, client, passing.replied, passing.ended), daemon=True)
        back.start()
        copy_octets(client, server, passing.sent)
        back.join()


def accept_all(listener, port, kind, passing, connections):
    """Accepts connections, and passes each of them on to the port of the program."""
    while True:
        client, _ = listener.accept()
        threading.Thread(target=pass_connection, args=(client, port, passing(kind), connections), daemon=True).start()


def end_after_stop(connections):
    """Ends all connections when this process goes on after it was stopped."""
    signal.sigwait({signal.SIGCONT})
    for connection in connections:
        with contextlib.suppress(OSError):
            connection.shutdown(socket.SHUT_RDWR)


def serve_through_proxy(passing):
    """Serves a rack by the right program, with a proxy at each port, and ends as the program does.

    Without `--ports FILE` there is no proxy.
    """
    words, connections = sys.argv[1:], []
    if words[:1] != ["serve"] or "--ports" not in words:
        os.execv(os.environ["RACKD_RIGHT"], [os.environ["RACKD_RIGHT"], *words])
    place = words.index("--ports") + 1
    file = Path(words[place])
    words[place] = f"{file}.right"
    with start_right(words, stdout=-1) as right:
        rows = []
        if passing.ENDS_AFTER_STOP:
            # Blocked in all threads, so that the one that waits for it gets it.
            signal.pthread_sigmask(signal.SIG_BLOCK, {signal.SIGCONT})
            threading.Thread(target=end_after_stop, args=(connections,), daemon=True).start()
        ready = right.stdout.readline()
        for row in Path(f"{file}.right").read_text(encoding="ascii").splitlines() if ready == b"ready\n" else []:
            _, number, _, listen, _, operator = row.split(" ")
            ports = {}
            for kind, port in (("listen", int(listen)), ("operator", int(operator))):
                listener = socket.create_server(("127.0.0.1", 0))
                ports[kind] = listener.getsockname()[1]
                threading.Thread(target=accept_all, args=(listener, port, kind, passing, connections), daemon=True).start()
            rows.append(f"line {number} listen {ports['listen']} operator {ports['operator']}\n")
        file.write_text("".join(rows), encoding="ascii")
        write_octets(sys.stdout, ready)
        copy_rest(right.stdout)
    sys.stdout.flush()
    os._exit(right.returncode)
