"""What wrong programs share that stand in for `rackd cable` and change its lines, its rows, or its connections."""
import os
import socket
import subprocess
import sys
import tempfile
import threading
from pathlib import Path

from support.stand_ins import be_right, start_right, write_octets


def as_it_is(row):
    return row


def run_cable(words, line=as_it_is, answer=as_it_is, report=as_it_is):
    """Runs a cable with these words to its end. Each line of standard input and each row of both outputs goes through a function,
    which returns what takes its place, with its LF."""
    if words[:1] != ["cable"]:
        be_right(words)
    process = start_right(words, stdin=subprocess.PIPE, stdout=subprocess.PIPE, stderr=subprocess.PIPE, bufsize=0)

    def copy_lines():
        with open(0, "rb", buffering=0, closefd=False) as lines:
            begun = b""
            while octets := lines.read(65536):
                *whole, begun = (begun + octets).split(b"\n")
                for one in whole:
                    process.stdin.write(line(one + b"\n"))

    def copy_rows(source, stream, change):
        for row in source:
            write_octets(stream, change(row))

    for copy, parts in ((copy_lines, ()), (copy_rows, (process.stderr, sys.stderr, report))):
        threading.Thread(target=copy, args=parts, daemon=True).start()
    copy_rows(process.stdout, sys.stdout, answer)
    return process.wait()


def without(words, option, values):
    """Returns the words without an option and its values."""
    if option not in words:
        return words
    place = words.index(option)
    return words[:place] + words[place + 1 + values:]


def copy(source, target, passes_end):
    """Copies octets from one socket to another, and its end if that is to be passed on."""
    try:
        while octets := source.recv(65536):
            target.sendall(octets)
    except OSError:
        pass
    if passes_end:
        try:
            target.shutdown(socket.SHUT_WR)
        except OSError:
            pass


def listen_between(port_of, passes_ends):
    """Listens at a port, and connects each connection with the port that `port_of` returns for its first octets.

    Returns the port. The connections of a master get nothing more of its octets than these two functions pass on.
    """
    listener = socket.create_server(("127.0.0.1", 0))

    def serve(client):
        first = client.recv(1, socket.MSG_PEEK)
        server = socket.create_connection(("127.0.0.1", port_of(client, first)))
        for one in client, server:
            one.setsockopt(socket.IPPROTO_TCP, socket.TCP_NODELAY, 1)
        back = threading.Thread(target=copy, args=(server, client, passes_ends), daemon=True)
        back.start()
        copy(client, server, passes_ends)
        back.join()
        if passes_ends:
            client.close()
            server.close()
        else:
            kept.append((client, server))

    def accept():
        while True:
            client, _ = listener.accept()
            threading.Thread(target=serve, args=[client], daemon=True).start()

    kept = []
    threading.Thread(target=accept, daemon=True).start()
    return listener.getsockname()[1]


def run_cable_between(words, port_of=None, passes_ends=True, before_line=False):
    """Runs a cable with a proxy in front of it, or with `before_line` between it and its line."""
    if words[:1] != ["cable"] or "--ports" not in words:
        be_right(words)
    path, line = words[words.index("--ports") + 1], int(words[1])
    with tempfile.TemporaryDirectory() as folder:
        ports = os.path.join(folder, "ports")
        changed = [ports if word == path else word for word in words]
        if before_line:
            changed[1] = str(listen_between(lambda *_: line, passes_ends))
        process = start_right(changed, stdin=0, stdout=subprocess.PIPE)
        ready = process.stdout.readline()
        listen = int(Path(ports).read_text(encoding="ascii").split()[-1])
        if not before_line:
            own = listen
            listen = listen_between(port_of or (lambda *_: own), passes_ends)
        Path(path).write_text(f"cable {line} listen {listen}\n", encoding="ascii")
        write_octets(sys.stdout, ready)
        for row in process.stdout:
            write_octets(sys.stdout, row)
        return process.wait()
