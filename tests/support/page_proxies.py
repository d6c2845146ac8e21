"""Wrong programs that change what the page of `rackd watch` is asked, or what it answers, by a proxy before the right program."""
import os
import re
import socket
import subprocess
import sys
import threading

from support.stand_ins import be_right, copy_rest, start_right, write_octets


def unchanged(octets, *_):
    """Returns octets as they are."""
    return octets


def without_port(words):
    """Returns the words without --port, and the port that it named, or 0."""
    if "--port" not in words:
        return words, 0
    at = words.index("--port")
    return words[:at] + words[at + 2:], int(words[at + 1])


def relay(source, target, change, passes_end):
    """Passes on what comes, changed, until a connection ends."""
    try:
        while octets := source.recv(1 << 20):
            target.sendall(change(octets))
        if passes_end:
            target.shutdown(socket.SHUT_WR)
    except OSError:
        if passes_end:
            target.close()


def watch_between(words, change_request=unchanged, change_answer=unchanged, passes_ends=True):
    """Runs the right program for `watch`, and a proxy before its page. The program runs alone if it is for something else.

    `change_request` gets what was read at one time and the port of the right program, `change_answer` what was read; both
    return what is passed on. Answers have a length in their fields, so what they become must be as long. Without
    `passes_ends` a client doesn't notice that the program has ended its connection.
    """
    if words[:1] != ["watch"]:
        be_right(words)
    words, port = without_port(words)
    process = start_right(words, stdin=subprocess.DEVNULL, stdout=subprocess.PIPE)
    found = re.fullmatch(rb"watching at http://127\.0\.0\.1:(\d+)/\n", process.stdout.readline())
    if not found:
        sys.exit(process.wait())
    right = int(found[1])
    listener = socket.create_server(("127.0.0.1", port), backlog=128)
    own = listener.getsockname()[1]

    def to_right(octets):
        # a request names the port of the proxy, and the program accepts only its own one
        return change_request(octets.replace(b":%d" % own, b":%d" % right), right)

    def serve():
        while True:
            client, _ = listener.accept()
            program = socket.create_connection(("127.0.0.1", right))
            for words in (client, program, to_right, True), (program, client, change_answer, passes_ends):
                threading.Thread(target=relay, args=words, daemon=True).start()

    threading.Thread(target=serve, daemon=True).start()
    write_octets(sys.stdout, b"watching at http://127.0.0.1:%d/\n" % own)
    copy_rest(process.stdout)
    os._exit(process.wait())
