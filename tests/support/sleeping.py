"""Whether a program has come to rest, and what it has left unread: for tests that show that it takes no more, or does nothing.

A program whose threads all sleep does nothing until something comes from outside, or until a sleep of its own ends. So
nothing here depends on how fast the machine is.
"""
import array
import fcntl
import resource
import termios
from pathlib import Path

from support.clients import wait_for

# Calls of fcntl for the room of a pipe, on Linux.
F_SETPIPE_SZ, F_GETPIPE_SZ = 1031, 1032


def processes(pid):
    """Returns the numbers of a process and of all that it has started: a wrong program may start the right one."""
    found = [pid]
    for path in Path(f"/proc/{pid}/task").glob("*/children"):
        for child in path.read_text(encoding="ascii").split():
            found += processes(int(child))
    return found


def threads(pid):
    """Returns the state of each thread of a process, and how often it has given up its processor."""
    found = {}
    for path in Path(f"/proc/{pid}/task").iterdir():
        status = dict(row.split(":", 1) for row in (path / "status").read_text(encoding="ascii", errors="replace").splitlines())
        switches = int(status["voluntary_ctxt_switches"]) + int(status["nonvoluntary_ctxt_switches"])
        found[path.name] = status["State"].split()[0], switches
    return found


def are_asleep(*pids):
    """Returns whether there was a moment, during this call, at which all threads of these processes slept."""
    try:
        before = [threads(pid) for pid in pids]
        assert not any(state == "Z" for found in before for state, _ in found.values()), "a process has ended"
        has_slept = all(state == "S" for found in before for state, _ in found.values())
        return has_slept and before == [threads(pid) for pid in pids]
    except (OSError, KeyError):
        # a thread has ended meanwhile
        return False


def wait_until_asleep(*pids):
    """Waits for a moment at which all threads of these processes sleep, and of those that they have started."""
    wait_for(lambda: are_asleep(*(one for pid in pids for one in processes(pid))), every=0.001)


def left_in_pipe(file):
    """Returns how many octets of a pipe nobody has read, at either end of it."""
    count = array.array("i", [0])
    fcntl.ioctl(file, termios.FIONREAD, count)
    return count[0]


def limit_pipe(file):
    """Gives a pipe as little room as the system allows, and returns how many octets that is."""
    fcntl.fcntl(file, F_SETPIPE_SZ, resource.getpagesize())
    return fcntl.fcntl(file, F_GETPIPE_SZ)


def left_at_sender(connection):
    """Returns how many octets of a socket the system of the other end has not acknowledged."""
    count = array.array("i", [0])
    fcntl.ioctl(connection, termios.TIOCOUTQ, count)
    return count[0]


def left_at_receiver(connection):
    """Returns how many octets that were sent by a socket lie at the other end, and were not read there."""
    own, other = connection.getsockname()[1], connection.getpeername()[1]
    for row in Path("/proc/net/tcp").read_text(encoding="ascii").splitlines()[1:]:
        _, local, remote, _, queues, *_ = row.split()
        if (int(local.split(":")[1], 16), int(remote.split(":")[1], 16)) == (other, own):
            return int(queues.split(":")[1], 16)
    raise AssertionError("the other end of the connection is gone")


def unread_of(connection, octets, *pids):
    """Sends octets, of which the system can hold all, and returns how many the other end leaves unread.

    That is, once all have arrived and all threads of these processes sleep.
    """
    connection.sendall(octets)
    wait_for(lambda: left_at_sender(connection) == 0)
    wait_until_asleep(*pids)
    return left_at_receiver(connection)


def peak_memory(pid):
    """Returns the most resident memory that a process has had, in octets."""
    status = Path(f"/proc/{pid}/status").read_text(encoding="ascii", errors="replace")
    row = next(row for row in status.splitlines() if row.startswith("VmHWM:"))
    return int(row.split()[1]) * 1024
