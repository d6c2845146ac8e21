#!/usr/bin/env python3
"""Gives a master that speaks to a serial port a session with a rack, with Python's standard library alone.

usage: serial-bridge.py PATH ADDRESS PORT

PATH becomes the name of a pseudo terminal, which the master's stack opens as its serial port, and closes and opens again
as it likes; ADDRESS, 0 to 126, is the master's address, and PORT where the line listens. The session lasts as long as the
bridge, which ends by a signal, or when the rack is gone. The stack sees neither the address, which the rack wants to know
first, nor the E5 that accepts it.
"""
import os
import select
import signal
import socket
import sys
import termios
import tty

# A speed that no stack uses.
OTHER_SPEED = termios.B50


def stop(text):
    """Ends the bridge."""
    sys.exit(f"serial-bridge: {text}")


def number_in(word, name, least, most):
    """The number that a word is, in plain decimal."""
    if not (word.isascii() and word.isdigit() and least <= int(word) <= most):
        stop(f"{name} is {least} to {most}, and not {word!r}")
    return int(word)


def open_terminal(path):
    """A pseudo terminal that changes no octet: the bridge's end, and the stack's, which has this name."""
    end, port = os.openpty()
    tty.setraw(port)
    if os.path.islink(path) and not os.path.exists(path):
        os.unlink(path)
    try:
        os.symlink(os.ttyname(port), path)
    except OSError as error:
        stop(f"{path} can't be made: {error.strerror}")
    # the stack's end stays open here too, so that the terminal lasts while no stack has it open
    return end, port


def open_session(address, port):
    """A connection at which the master is accepted."""
    try:
        line = socket.create_connection(("127.0.0.1", port))
    except OSError as error:
        stop(f"port {port}: {error.strerror}")
    line.setsockopt(socket.IPPROTO_TCP, socket.TCP_NODELAY, 1)
    line.settimeout(10)
    line.sendall(bytes([address]))
    try:
        answer = line.recv(1)
    except socket.timeout:
        stop(f"port {port} doesn't answer: all workers are busy")
    if answer != b"\xe5":
        stop(f"master {address} is not accepted at port {port}: it is no master of the line, or has a session")
    line.settimeout(None)
    return line


def change_speed(port):
    """Sets a speed that no stack uses. A pseudo terminal has no parity, and Linux refuses settings of which only the parity
    is new. So a stack with even parity that opens the port again must find another speed than its own."""
    settings = termios.tcgetattr(port)
    if settings[5] != OTHER_SPEED:
        settings[4] = settings[5] = OTHER_SPEED
        termios.tcsetattr(port, termios.TCSANOW, settings)


def hand_on(end, port, line):
    """Hands on every octet both ways, until the rack is gone."""
    while True:
        ready, _, _ = select.select([end, line], [], [], 0.05)
        change_speed(port)
        if end in ready:
            line.sendall(os.read(end, 4096))
        if line in ready:
            octets = line.recv(4096)
            if not octets:
                return
            os.write(end, octets)


def main(words):
    """Makes the terminal, opens the session, and hands on."""
    if len(words) != 3:
        stop("usage: serial-bridge.py PATH ADDRESS PORT")
    path = words[0]
    address = number_in(words[1], "ADDRESS", 0, 126)
    port = number_in(words[2], "PORT", 1, 65535)
    signal.signal(signal.SIGTERM, signal.default_int_handler)
    line = open_session(address, port)
    end, kept = open_terminal(path)
    try:
        hand_on(end, kept, line)
    except KeyboardInterrupt:
        return
    except OSError as error:
        stop(f"the session ended: {error.strerror}")
    finally:
        os.unlink(path)
    stop("the rack has ended the session")


if __name__ == "__main__":
    main(sys.argv[1:])
