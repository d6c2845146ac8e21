"""Masters and operators that behave badly, in threads of their own, for as long as a test lets them."""
import random
import socket
import struct
import threading
import time
from collections import Counter

from rackd import frames
from rackd.master import STATUS

from support.clients import connect_socket
from support.processes import PATIENCE
from support.telegrams import chk_cfg, data_exchange, global_control, set_prm, slave_diag

# Function codes of requests, with each value of the bits FCB and FCV.
CODES = (0x4D, 0x5D, 0x6D, 0x7D)
# Octets that begin a telegram, as octets that don't.
CALM = bytes(0 if octet in (0x10, 0x68, 0xA2, 0xDC, 0xE5) else octet for octet in range(256))
# Rows of an operator that are answered by one row each, and rows that are not answered.
ROWS = (
    b"in 20 aa55", b"in 9 aa", b"in 20 aa", b"tick 0", b"tick 3", b"show 20", b"show 5", b"owned 1", b"owned 99", b"step",
    b"busy 20 61 on", b"busy 20 61 off", b"diag 20 e 0301ff", b"nonsense", b"tick", b"tick -1", b"tick 4294967296",
    b"in 20 a", b"show  20", b"busy 20 55 on", b"x" * 1024, b"x" * 1025, b"y" * 5000, b"\xff\xfe", b"caf\xe9", b" ", b"\r",
)
SILENT_ROWS = (b"", b"# nothing", b"#\xc3\xa9")


def fdl_status(slave, master):
    """Returns an FDL status request."""
    return frames.request(slave, master, STATUS)


def good_requests(master, slave, chance):
    """Returns good requests of a master to a slave, with any frame count bit."""
    code = chance.choice(CODES)
    return (
        slave_diag(master, slave, code),
        set_prm(master, slave, code, watchdog_ms=100, group=1),
        set_prm(master, slave, code, ident=0, lock=False, unlock=True, min_tsdr=0),
        chk_cfg(master, slave, code),
        data_exchange(master, slave, code, chance.randbytes(2)),
        frames.request(slave, master, code, b"", 57, 62),
        global_control(master, chance.randrange(64), chance.randrange(4)),
    )


def damaged(octets, chance):
    """Returns the octets of a telegram with a wrong one, without its end, with another length, or twice in one another."""
    octets, place = bytearray(octets), chance.randrange(len(octets))
    way = chance.randrange(4)
    if way == 0:
        octets[place] ^= 1 << chance.randrange(8)
    elif way == 1:
        del octets[place:]
    elif way == 2:
        octets[1 % len(octets)] = chance.randrange(256)
    else:
        octets[place:place] = octets
    return bytes(octets)


class Events:
    """What clients did and what went wrong, over all threads."""

    def __init__(self):
        self._lock, self.counts, self.faults = threading.Lock(), Counter(), []

    def add(self, kind, count=1):
        with self._lock:
            self.counts[kind] += count

    def fail(self, text):
        with self._lock:
            self.faults.append(text)


class BadClient(threading.Thread):
    """A client that connects to a port again and again until `until()` holds."""

    def __init__(self, port, name, seed, until, events):
        super().__init__(daemon=True)
        self.port, self.called, self.until, self.events = port, name, until, events
        self.chance = random.Random(seed)

    def run(self):
        while not self.until():
            try:
                self.session(connect_socket(self.port))
            except ConnectionError:
                self.events.add("connections that ended")
            except socket.timeout:
                self.events.fail(f"{self.called}: no answer within {PATIENCE} seconds")
                return
            except BaseException as fault:
                self.events.fail(f"{self.called}: {fault!r}")
                raise

    def session(self, connection):
        raise NotImplementedError

    def send_in_pieces(self, connection, octets):
        """Sends octets in pieces of any size."""
        while octets:
            size = self.chance.choice((1, 2, 7, 64, 255, 256, 1000, len(octets)))
            connection.sendall(octets[:size])
            self.events.add("octets", len(octets[:size]))
            octets = octets[size:]

    def end(self, connection):
        """Ends a connection: killed, closed by halves and then read to its end, or closed."""
        way = self.chance.randrange(3)
        if way == 0:
            self.events.add("clients killed")
            connection.setsockopt(socket.SOL_SOCKET, socket.SO_LINGER, struct.pack("ii", 1, 0))
        elif way == 1:
            self.events.add("halves closed")
            connection.shutdown(socket.SHUT_WR)
            while connection.recv(65536):
                pass
        connection.close()


def has_status(connection, master, slave):
    """Returns whether a request for the status of a slave gets its one reply; what else was replied before doesn't count."""
    connection.sendall(fdl_status(slave, master))
    wanted, octets = frames.sd1(master, slave, 0x00), b""
    while not octets.endswith(wanted):
        more = connection.recv(4096)
        if not more:
            return False
        octets = (octets + more)[-4096:]
    return True


class BadMaster(BadClient):
    """A master that asks well, sends noise and damaged telegrams, says nothing, never reads, or has a wrong address."""

    def __init__(self, port, line, master, slaves, until, events):
        super().__init__(port, f"line {line} master {master}", line * 1000 + master, until, events)
        self.master, self.slaves = master, slaves

    def session(self, connection):
        kind = self.chance.randrange(12)
        if kind == 0:
            self.events.add("clients that said nothing")
            time.sleep(self.chance.random() / 20)
            self.end(connection)
        elif kind == 1:
            self.events.add("clients with a wrong address")
            connection.sendall(bytes([self.chance.choice((16, 99, 127, 200, 255))]))
            if connection.recv(1):
                self.events.fail(f"{self.called}: an address that is no master's is answered")
            connection.close()
        else:
            self.accepted(connection, kind)

    def accepted(self, connection, kind):
        connection.sendall(bytes([self.master]))
        if connection.recv(1) != b"\xe5":
            self.events.add("addresses that were held")
            connection.close()
            time.sleep(self.chance.random() / 100)
            return
        self.events.add("sessions of masters")
        if kind == 2:
            self.never_reads(connection)
        elif kind in (3, 4, 5):
            self.sends_noise(connection)
        else:
            self.talks(connection)
        self.end(connection)

    def sends_noise(self, connection):
        """Noise without the first octets of telegrams; the rack still answers after it."""
        self.events.add("clients that send noise")
        noise = self.chance.randbytes(self.chance.choice((10, 1000, 100000))).translate(CALM)
        self.send_in_pieces(connection, noise)
        if not has_status(connection, self.master, self.chance.choice(self.slaves)):
            self.events.fail(f"{self.called}: no status after noise")

    def talks(self, connection):
        """Good requests, damaged ones and noise; what is replied is read and thrown away."""
        chance, octets = self.chance, b""
        for _ in range(chance.randrange(1, 12)):
            good = chance.choice(good_requests(self.master, chance.choice(self.slaves), chance))
            octets += chance.choice((good, good, damaged(good, chance), chance.randbytes(chance.randrange(40)) + good))
            self.events.add("telegrams")
        self.send_in_pieces(connection, octets)
        connection.settimeout(0.02)
        try:
            while connection.recv(65536):
                pass
        except socket.timeout:
            pass
        connection.settimeout(PATIENCE)

    def never_reads(self, connection):
        """Requests until nothing more is taken for a while, or enough were sent."""
        self.events.add("clients that never read")
        requests = fdl_status(self.slaves[0], self.master) * 20
        connection.setsockopt(socket.SOL_SOCKET, socket.SO_RCVBUF, 4096)
        connection.settimeout(0.05)
        try:
            for _ in range(10):
                connection.sendall(requests)
                self.events.add("octets", len(requests))
                self.events.add("telegrams", 20)
        except socket.timeout:
            pass
        connection.settimeout(PATIENCE)


class BadOperator(BadClient):
    """An operator that sends commands, rows that are none, rows that are too long, and octets that are no UTF-8. Each row that
    isn't silent is answered by one row."""

    def __init__(self, port, line, until, events):
        super().__init__(port, f"line {line} operator", line, until, events)

    def session(self, connection):
        chance = self.chance
        rows = [chance.choice(ROWS + SILENT_ROWS) for _ in range(chance.randrange(1, 30))]
        wanted = sum(row not in SILENT_ROWS for row in rows)
        text = b"".join(row + b"\n" for row in rows) + chance.choice((b"", b"tick 1", b"\xff"))
        self.events.add("sessions of operators")
        self.events.add("rows of operators", len(rows))
        if chance.randrange(8) == 0:
            connection.sendall(text)
            self.end(connection)
            return
        self.send_in_pieces(connection, text)
        connection.shutdown(socket.SHUT_WR)
        answers = b""
        while more := connection.recv(65536):
            answers += more
        if answers.count(b"\n") != wanted:
            self.events.fail(f"{self.called}: {wanted} rows get {answers.count(10)} answers: {rows!r}: {answers!r}")
        connection.close()
        time.sleep(chance.random() / 20)
