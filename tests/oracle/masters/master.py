#!/usr/bin/env python3
"""A PROFIBUS DP master of class 1 in Python, for a line of a rack that is served.

README.md in this folder gives its words, its environment and what it writes. The code uses the standard library only, and
shares nothing with the rest of the repository. Each slave is a generator: it yields the next request to the slave, and
receives the reply.
"""
import argparse
import os
import select
import shlex
import signal
import socket
import sys
import time
from collections import namedtuple

# Function codes of requests and replies (IEC 61158-4-3, function code).
REQUEST, FCB, FCV = 0x40, 0x20, 0x10
SDN_HIGH, SRD_HIGH = 0x06, 0x0D
OK, UE, RR, RS, DL, DH = 0x00, 0x01, 0x02, 0x03, 0x08, 0x0A
# Service access points (IEC 61158-6-3). The master asks from point 62.
GLOBAL_CONTROL, SLAVE_DIAG, SET_PRM, CHK_CFG, MASTER_POINT = 58, 60, 61, 62, 62
EVERYBODY = 127
# The first octet of Set_Prm, and of Global_Control.
LOCK, UNLOCK, SYNC_REQ, FREEZE_REQ, WATCHDOG_ON = 0x80, 0x40, 0x20, 0x10, 0x08
UNFREEZE, FREEZE, UNSYNC, SYNC = 0x04, 0x08, 0x10, 0x20

RETRIES = 3
PAUSE = 0.02  # seconds between two requests to a slave that does not exchange data
CONTROL_CYCLES = 10  # a Global_Control is sent once in this number of cycles

# dsap is None for Data_Exchange; at_once is true for a request that follows its predecessor without waiting for the next cycle.
Request = namedtuple("Request", "dsap data at_once")
# code is None for a short acknowledgement, data is without access points.
Reply = namedtuple("Reply", "code data")
WAIT = object()  # yielded by a slave that has nothing to send until PAUSE has passed


class LineEnded(Exception):
    """The rack closed the connection."""


class Diagnosis:
    """The first six octets of a Slave_Diag reply."""

    def __init__(self, octets):
        self.not_ready = bool(octets[0] & 0x02)
        self.fault = bool(octets[0] & 0x54)  # Cfg_Fault, Not_Supported, Prm_Fault
        self.wants_parameters = bool(octets[1] & 0x01)
        self.static = bool(octets[1] & 0x02)
        self.holder = octets[3]
        self.ident = octets[4] << 8 | octets[5]


class Slave:
    """A slave, as the master is configured for it, and what the master knows of it."""

    def __init__(self, word):
        address, ident, cfg, outputs, watchdog, groups = word.split(":")
        self.address = int(address)
        self.ident = int(ident, 16)
        self.cfg = bytes.fromhex("" if cfg == "-" else cfg)
        self.outputs = int(outputs)
        self.watchdog = int(watchdog)
        self.groups = int(groups, 16)
        self.exchanges = self.starts = self.diagnoses = self.retries = self.losses = 0
        self.restart()

    def restart(self):
        """Forgets what the connection knew of the slave: it counts as not operational, and its next request is its first."""
        self.operational = False
        self.count_bit = None
        self.exchanging = False
        self.gave_up = False
        self.not_before = 0.0

    def frame_count(self):
        """FCB and FCV of the next new request."""
        if self.count_bit is None:
            return FCB
        return FCV | (FCB if self.count_bit else 0)

    def answered(self):
        """The request has a reply: the next one has the other FCB. The first had FCB 1."""
        self.operational = True
        self.count_bit = not self.count_bit if self.count_bit is not None else False


def watchdog_factors(milliseconds):
    """WD_Fact_1 and WD_Fact_2, whose product is the least number of 10 ms that is not shorter than the watchdog."""
    units = max(1, -(-milliseconds // 10))
    pairs = [(first, -(-units // first)) for first in range(1, 256)]
    return min((pair for pair in pairs if pair[1] <= 255), key=lambda pair: pair[0] * pair[1])


def parameters(slave, options):
    """The octets of a Set_Prm that locks the slave."""
    first = LOCK
    if slave.groups & options.sync:
        first |= SYNC_REQ
    if slave.groups & options.freeze:
        first |= FREEZE_REQ
    factors = (0, 0)
    if slave.watchdog:
        first |= WATCHDOG_ON
        factors = watchdog_factors(slave.watchdog)
    return bytes([first, *factors, options.min_tsdr, slave.ident >> 8, slave.ident & 0xFF, slave.groups])


# The life of a slave

def ask(dsap=None, data=b"", at_once=False):
    """Sends a new request until the slave takes it; returns None if the slave is lost."""
    while True:
        reply = yield Request(dsap, data, at_once)
        if reply is None or reply.code != RR:
            return reply
        yield WAIT


def diagnose(slave, at_once=False):
    """Asks for the diagnosis until it comes."""
    while True:
        reply = yield from ask(SLAVE_DIAG, b"", at_once)
        if reply is not None and reply.code in (DL, DH) and len(reply.data) >= 6:
            slave.diagnoses += 1
            return Diagnosis(reply.data)
        at_once = False
        yield WAIT


def bring_up(slave, options):
    """Brings the slave into data exchange, from Slave_Diag on, however often it takes."""
    while True:
        seen = yield from diagnose(slave)
        if seen.holder not in (options.address, 255) or seen.ident != slave.ident:
            yield WAIT
            continue
        reply = yield from ask(SET_PRM, parameters(slave, options))
        if reply is None or reply.code is not None:
            yield WAIT
            continue
        reply = yield from ask(CHK_CFG, slave.cfg)
        if reply is None or reply.code is not None:
            yield WAIT
            continue
        seen = yield from diagnose(slave)
        while seen.holder == options.address and seen.not_ready and not (seen.fault or seen.wants_parameters):
            yield WAIT
            seen = yield from diagnose(slave)
        if seen.holder == options.address and not (seen.not_ready or seen.fault or seen.wants_parameters):
            return
        yield WAIT


def exchange(slave, options):
    """Exchanges data until the slave refuses, is lost or is no longer ready."""
    number = 0
    while True:
        outputs = bytes((number + place) & 0xFF for place in range(slave.outputs))
        number += 1
        reply = yield from ask(None, outputs)
        if reply is None or reply.code == RS:
            return
        if reply.code not in (None, OK, DL, DH):
            # The slave does not take this number of octets: it is configured wrongly, and is only looked at from now on.
            slave.gave_up = True
            return
        slave.exchanges += 1
        if reply.code != DH:
            continue
        seen = yield from diagnose(slave, at_once=True)
        # The slave asks for its diagnosis until Stat_Diag is clear, and has no valid data until then.
        while seen.static and seen.holder == options.address and not (seen.not_ready or seen.wants_parameters):
            yield WAIT
            seen = yield from diagnose(slave)
        if seen.holder != options.address or seen.not_ready or seen.wants_parameters:
            return


def life(slave, options):
    """All that the master sends to the slave."""
    while True:
        yield from bring_up(slave, options)
        slave.starts += 1
        slave.exchanging = True
        yield from exchange(slave, options)
        slave.exchanging = False
        while slave.gave_up:
            yield WAIT
            yield from diagnose(slave)


# The line

class Line:
    """A connection to a line as one of its masters."""

    def __init__(self, options):
        self.address = options.address
        self.slot = options.slot / 1000
        self.strays = 0
        self.unsettled = False
        self.octets = bytearray()
        self.socket = socket.create_connection(("127.0.0.1", options.port), timeout=10)
        self.socket.setsockopt(socket.IPPROTO_TCP, socket.TCP_NODELAY, 1)
        self.socket.sendall(bytes([self.address]))
        if self.socket.recv(1) != b"\xe5":
            self.socket.close()
            raise LineEnded

    def request(self, slave, dsap, data):
        """Sends a request with its retries; returns the reply, or None if the slave is lost."""
        telegram = self.telegram(slave.address, REQUEST | SRD_HIGH | slave.frame_count(), dsap, data)
        if self.unsettled:
            # An earlier request was sent twice, or had no reply: its replies may still come.
            self.unsettled = False
            time.sleep(self.slot / 4)
        for retry in range(RETRIES + 1 if slave.operational else 1):
            self.drain()
            if retry:
                slave.retries += 1
                self.unsettled = True
            self.socket.sendall(telegram)
            reply = self.reply(slave.address, dsap)
            if reply is not None:
                slave.answered()
                return reply
        if slave.operational:
            slave.losses += 1
            self.unsettled = True
        slave.operational = False
        slave.count_bit = None
        return None

    def control(self, command, groups):
        """Sends a Global_Control to all slaves."""
        self.drain()
        self.socket.sendall(self.telegram(EVERYBODY, REQUEST | SDN_HIGH, GLOBAL_CONTROL, bytes([command, groups])))

    def telegram(self, station, function, dsap, data):
        extended = 0 if dsap is None else 0x80
        points = b"" if dsap is None else bytes([dsap, MASTER_POINT])
        body = bytes([station | extended, self.address | extended, function]) + points + data
        end = bytes([sum(body) & 0xFF, 0x16])
        if len(body) == 3:
            return b"\x10" + body + end
        return bytes([0x68, len(body), len(body), 0x68]) + body + end

    def receive(self):
        piece = self.socket.recv(4096)
        if not piece:
            raise LineEnded
        self.octets += piece

    def drain(self):
        """Reads and drops what has come too late."""
        while select.select([self.socket], [], [], 0)[0]:
            self.receive()
        if self.octets:
            self.strays += 1
            self.octets.clear()

    def reply(self, station, dsap):
        """The reply of the station to a request to this point, if it comes within the slot time."""
        end = time.monotonic() + self.slot
        while True:
            for body in self.cut():
                if body is None:
                    return Reply(None, b"")
                reply = self.read(body, station, dsap)
                if reply is not None:
                    return reply
                self.strays += 1
            rest = end - time.monotonic()
            if rest <= 0:
                return None
            if select.select([self.socket], [], [], rest)[0]:
                self.receive()

    def cut(self):
        """Takes whole telegrams from what has come: None for SC, else the octets from DA to the end of the data."""
        while self.octets:
            start = self.octets[0]
            if start == 0xE5:
                del self.octets[0]
                yield None
                continue
            if start == 0x68 and len(self.octets) < 4:
                return
            if start == 0x68 and self.octets[1] == self.octets[2] and self.octets[3] == 0x68:
                head, length = 4, self.octets[1]
            elif start in (0x10, 0xA2):
                head, length = 1, 3 if start == 0x10 else 11
            else:
                del self.octets[0]
                continue
            if len(self.octets) < head + length + 2:
                return
            body = bytes(self.octets[head:head + length])
            end = bytes(self.octets[head + length:head + length + 2])
            del self.octets[:head + length + 2]
            if length >= 3 and end == bytes([sum(body) & 0xFF, 0x16]):
                yield body

    def read(self, body, station, dsap):
        """The reply in the octets, or None if it is not the one of this station from this point to this master."""
        destination, source, function, data = body[0], body[1], body[2], body[3:]
        if destination & 0x7F != self.address or source & 0x7F != station or function & 0xF0:
            return None
        points = b""
        if destination & 0x80:
            points, data = points + data[:1], data[1:]
        if source & 0x80:
            points, data = points + data[:1], data[1:]
        if points and (dsap is None or points != bytes([MASTER_POINT, dsap])):
            return None
        if data and dsap is not None and not points:
            return None
        return Reply(function, data)


# The master

class Master:
    """Brings up its slaves and exchanges data with them, over one connection after another."""

    def __init__(self, options):
        self.options = options
        self.slaves = [Slave(word) for word in options.slaves]
        self.lives = {}
        self.due = {}
        self.strays = 0
        self.stopped = False
        self.end = None if options.seconds is None else time.monotonic() + options.seconds

    def finished(self):
        if self.stopped or self.end is not None and time.monotonic() >= self.end:
            return True
        return self.options.exchanges is not None and all(
            slave.exchanges >= self.options.exchanges for slave in self.slaves)

    def run(self):
        while not self.finished():
            try:
                line = Line(self.options)
            except (OSError, LineEnded):
                time.sleep(0.1)
                continue
            try:
                self.serve(line)
                self.leave(line)
            except (OSError, LineEnded):
                pass
            self.strays += line.strays
            line.socket.close()

    def serve(self, line):
        for slave in self.slaves:
            slave.restart()
            self.lives[slave] = life(slave, self.options)
            self.due[slave] = next(self.lives[slave])
        cycle = 0
        while not self.finished():
            for slave in self.slaves:
                self.turn(line, slave)
            cycle += 1
            if cycle % CONTROL_CYCLES == 0:
                self.control(line, SYNC, FREEZE)
            time.sleep(self.options.cycle / 1000)

    def turn(self, line, slave):
        """One request to the slave, and those that follow it at once."""
        if self.due[slave] is WAIT:
            if time.monotonic() < slave.not_before:
                return
            self.due[slave] = self.lives[slave].send(None)
        while True:
            request = self.due[slave]
            reply = line.request(slave, request.dsap, request.data)
            self.due[slave] = self.lives[slave].send(reply)
            if self.due[slave] is WAIT:
                slave.not_before = time.monotonic() + PAUSE
                return
            if not self.due[slave].at_once:
                return

    def control(self, line, sync, freeze):
        """Sends the commands to the groups that have a slave in data exchange."""
        active = 0
        for slave in self.slaves:
            if slave.exchanging:
                active |= slave.groups
        commands = {}
        for command, groups in ((sync, self.options.sync), (freeze, self.options.freeze)):
            if groups & active:
                commands[groups] = commands.get(groups, 0) | command
        for groups, command in commands.items():
            line.control(command, groups)

    def leave(self, line):
        self.control(line, UNSYNC, UNFREEZE)
        for slave in self.slaves:
            if self.options.unlock and slave.exchanging:
                octets = bytes([UNLOCK, 0, 0, self.options.min_tsdr, slave.ident >> 8, slave.ident & 0xFF, slave.groups])
                line.request(slave, SET_PRM, octets)

    def report(self):
        """Writes what happened; returns the exit status."""
        for slave in self.slaves:
            print(f"slave {slave.address} exchanges {slave.exchanges} starts {slave.starts} diagnoses {slave.diagnoses}"
                  f" retries {slave.retries} losses {slave.losses}")
        print(f"master {self.options.address} strays {self.strays}")
        least = self.options.exchanges or 1
        return 0 if all(slave.exchanges >= least for slave in self.slaves) else 1


def slave_word(address):
    """The word for a slave of the environment."""
    ident, cfg, outputs, watchdog, group = (
        os.environ[f"RACKD_SLAVE_{address}_{key}"] for key in ("IDENT", "CFG", "OUTPUTS", "WATCHDOG_MS", "GROUP"))
    return f"{address}:{int(ident):x}:{cfg or '-'}:{len(outputs) // 2}:{watchdog}:{int(group):x}"


def words():
    """The words of the command line; those of the environment if there are none."""
    if len(sys.argv) > 1:
        return sys.argv[1:]
    try:
        slaves = map(slave_word, os.environ["RACKD_SLAVE_ADDRESSES"].split())
        return [os.environ["RACKD_PORT"], os.environ["RACKD_ADDRESS"], *slaves,
                *shlex.split(os.environ.get("MASTER_OPTIONS", ""))]
    except KeyError as missing:
        print(f"master.py: there are no words, and the variable {missing} is missing", file=sys.stderr)
        sys.exit(2)


def main():
    parser = argparse.ArgumentParser(description="A DP master of class 1; see README.md.")
    parser.add_argument("port", type=int)
    parser.add_argument("address", type=int)
    parser.add_argument("slaves", nargs="+", metavar="ADDRESS:IDENT:CFG:OUTPUTS:WATCHDOG:GROUPS")
    parser.add_argument("--seconds", type=float)
    parser.add_argument("--exchanges", type=int)
    parser.add_argument("--sync", type=lambda word: int(word, 16), default=0, metavar="GROUPS")
    parser.add_argument("--freeze", type=lambda word: int(word, 16), default=0, metavar="GROUPS")
    parser.add_argument("--unlock", action="store_true")
    parser.add_argument("--min-tsdr", type=int, default=11)
    parser.add_argument("--slot", type=int, default=100, metavar="MS")
    parser.add_argument("--cycle", type=int, default=5, metavar="MS")
    options = parser.parse_args(words())
    if options.seconds is None:
        options.seconds = 2 if options.exchanges is None else 30
    try:
        master = Master(options)
    except ValueError:
        parser.error("a slave is ADDRESS:IDENT:CFG:OUTPUTS:WATCHDOG:GROUPS")
    signal.signal(signal.SIGTERM, lambda *_: setattr(master, "stopped", True))
    master.run()
    sys.exit(master.report())


if __name__ == "__main__":
    main()
