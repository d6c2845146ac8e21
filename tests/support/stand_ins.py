"""What wrong programs share that start the right one and do something beside it (tests/wrong_programs)."""
import contextlib
import ctypes
import os
import signal
import socket
import subprocess
import sys
import threading
from pathlib import Path

PR_SET_PDEATHSIG = 1
libc = ctypes.CDLL(None, use_errno=True)


def die_with_parent():
    """Has the system kill this process when its parent ends."""
    libc.prctl(PR_SET_PDEATHSIG, signal.SIGKILL)


def start_right(words, **options):
    """Starts the right program with these words. It ends with this process at the latest."""
    return subprocess.Popen([os.environ["RACKD_RIGHT"], *words], preexec_fn=die_with_parent, **options)


def be_right(words):
    """Becomes the right program with these words."""
    os.execv(os.environ["RACKD_RIGHT"], [os.environ["RACKD_RIGHT"], *words])


def write_octets(stream, octets):
    """Writes octets to standard output or standard error."""
    stream.buffer.write(octets)
    stream.flush()


def copy_rest(source):
    """Copies what comes of an output of the right program to standard output, row by row."""
    for row in source:
        write_octets(sys.stdout, row)


def copy_octets(source, sink):
    """Copies octets from one socket to another until the first one ends. Returns how many there were."""
    count = 0
    with contextlib.suppress(OSError):
        while octets := source.recv(4096):
            sink.sendall(octets)
            count += len(octets)
    return count


def serve_behind(words, pass_on):
    """Serves with the right program, and stands before its ports of masters. Returns the status. The words have --ports.

    `pass_on` is called with each client, and with a socket that is connected to the port, in a thread of its own.
    """
    def accept(listener, port):
        while True:
            client, _ = listener.accept()
            line = socket.create_connection(("127.0.0.1", port))
            threading.Thread(target=pass_on, args=(client, line), daemon=True).start()

    process = start_right(words, stdin=0, stdout=subprocess.PIPE)
    ready = process.stdout.readline()
    if ready:
        path = Path(words[words.index("--ports") + 1])
        rows = [row.split(" ") for row in path.read_text(encoding="ascii").splitlines()]
        for row in rows:
            listener = socket.create_server(("127.0.0.1", 0))
            threading.Thread(target=accept, args=(listener, int(row[3])), daemon=True).start()
            row[3] = str(listener.getsockname()[1])
        path.write_text("".join(" ".join(row) + "\n" for row in rows), encoding="ascii")
    write_octets(sys.stdout, ready)
    copy_rest(process.stdout)
    return process.wait()
