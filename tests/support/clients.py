"""What tests do with the masters, operators and connections of the package beside what the package does."""
import socket
import time

from rackd import frames
from rackd.connection import Connection, open_session
from rackd.faults import OperatorRefused

from support.processes import PATIENCE


def open_master(port, address):
    """Returns the session of a master as a connection, for octets that are no whole telegrams."""
    return open_session(port, address, f"master {address} of port {port}")


def connect(port):
    """Returns a connection to a port that has sent nothing yet."""
    return Connection(port, f"client of port {port}")


def connect_socket(port):
    """Returns a plain socket that is connected to a port, for what a connection of the package can't do."""
    connection = socket.create_connection(("127.0.0.1", port), PATIENCE)
    connection.setsockopt(socket.IPPROTO_TCP, socket.TCP_NODELAY, 1)
    return connection


def receive(connection, count, within=PATIENCE):
    """Returns the next octets of a connection of the package: this number, and fewer only if the connection ends."""
    octets, until = b"", time.monotonic() + within
    while len(octets) < count:
        left = until - time.monotonic()
        assert left > 0, f"after {within} seconds only {len(octets)} of {count} octets have come"
        more = connection.receive_or_end(left) if count - len(octets) else b""
        if more is None:
            break
        octets += more
    assert len(octets) <= count, f"{len(octets)} octets have come, not {count}"
    return octets


def receive_frame(connection, within=PATIENCE):
    """Returns the next frame of a connection whose other end sends one frame at a time, or what came before its end."""
    octets, until = b"", time.monotonic() + within
    while (size := frames.size_of(octets)) is None or len(octets) < size:
        left = until - time.monotonic()
        assert left > 0, f"no frame has come after {within} seconds, only {octets.hex(' ')}"
        more = connection.receive_or_end(left)
        if more is None:
            break
        octets += more
    return octets


def exchange(connection, telegram):
    """Sends a telegram, and returns the frame that replies."""
    connection.send(telegram)
    return receive_frame(connection)


def has_ended(connection, within=PATIENCE):
    """Returns whether the other end has closed a connection, after it waited for that."""
    until = time.monotonic() + within
    while time.monotonic() < until:
        if connection.receive_or_end(until - time.monotonic()) is None:
            return True
    return False


def answer_to(operator, command):
    """Returns the answer of an operator of the package to a command, also if it is a refusal or a fault."""
    try:
        return operator.ask(command)
    except OperatorRefused as refusal:
        return str(refusal).removeprefix(f"{command}: ")


def free_ports(count):
    """Returns ports that were free just now, all different: for tests that need a port before a server has it."""
    listeners = [socket.create_server(("127.0.0.1", 0)) for _ in range(count)]
    try:
        return [listener.getsockname()[1] for listener in listeners]
    finally:
        for listener in listeners:
            listener.close()


def wait_for(what, within=PATIENCE, every=0.005):
    """Calls a function until it returns something true, and returns that; fails after a number of seconds."""
    until = time.monotonic() + within
    while not (found := what()):
        assert time.monotonic() < until, f"not after {within} seconds: {getattr(what, '__name__', what)}"
        time.sleep(every)
    return found
