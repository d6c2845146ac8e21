#!/usr/bin/env python3
"""Measures how long the beginning of a part of an endless audit text holds up its line, with 64 slaves and 16 masters: the
time of the one reply that waits for it, beside those of all others. Older parts are deleted meanwhile. It is not in the gate.

usage: part_times.py PROGRAM [PARTS]

It does this for short replies that are remembered (each master has asked each slave for its diagnosis), and for the longest
(each master has read 244 octets of inputs of each slave). The parts have 16 megabytes, as usual, and 100 take some minutes.
"""
import re
import statistics
import sys
import tempfile
import time
from pathlib import Path

sys.dont_write_bytecode = True
TESTS = Path(__file__).resolve().parent.parent
sys.path[:0] = [str(TESTS), str(TESTS.parent / "python")]
from rackd import frames
from rackd.master import CHK_CFG, MASTER, RD_INP, SET_PRM, parameters
from support.clients import exchange, open_master
from support.racks import line, rack, slave
from support.servers import Server
from support.telegrams import ACCEPTED, slave_diag

MASTERS, SLAVES = range(100, 116), range(5, 69)
# How many of the newest parts stay, and after how many requests the names of new ones are read.
KEPT, BETWEEN = 4, 500
# The configuration of a slave with 244 octets of inputs, and its parameters without a watchdog.
CONFIGURATION, PARAMETERS = bytes([0x1F] * 15 + [0x13]), parameters(0x80A1)


def described():
    """Returns the rack of one line."""
    slaves = [slave(address, cfg=CONFIGURATION.hex()) for address in SLAVES]
    return rack(line(1, *slaves, masters=list(MASTERS), capacity=16416), workers=16)


def read_inputs(master, address, code):
    """Returns an RD_Inp."""
    return frames.request(address, master, code, b"", RD_INP, MASTER)


def check_first(master, address, code):
    """Returns a long Chk_Cfg, which a slave without parameters refuses."""
    return frames.request(address, master, code, bytes([0x11] * 244), CHK_CFG, MASTER)


class Asked:
    """Requests of one master after another: how long each reply took, in the order of the places of their entries."""

    def __init__(self):
        self.times = []

    def ask(self, session, octets):
        """Sends a request, and returns its reply."""
        start = time.perf_counter()
        answer = exchange(session, octets)
        self.times.append(time.perf_counter() - start)
        return answer


def lock_all(asked, session, master):
    """The master takes each slave to Data_Exch."""
    for address in SLAVES:
        for code, point, data in (0x6D, SET_PRM, PARAMETERS), (0x5D, CHK_CFG, CONFIGURATION):
            assert asked.ask(session, frames.request(address, master, code, data, point, MASTER)) == ACCEPTED
        asked.ask(session, slave_diag(master, address, 0x7D))


def add_places(folder, found):
    """Adds the places of the heads of new parts."""
    for path in folder.iterdir():
        if path.name not in found and not path.name.endswith(".000001.audit"):
            try:
                with open(path, "rb") as file:
                    place = re.match(rb"rack-audit 3 line 1 from (\d+)\n", file.readline())
            except FileNotFoundError:
                continue
            if place:
                found[path.name] = int(place[1])


def size_of_head(path):
    """Returns the number of octets of the head of a part."""
    with open(path, "rb") as file:
        return sum(len(row) for row in file if not row[:1].isdigit())


def reply_times(program, work, parts, remembered, filling, locks):
    """Returns the times of the replies that waited for a part, those of all behind the first part, and the size of a head.

    Each master sends each slave the first request, and the last master fills the text by the other one.
    """
    server, asked, found, folder = None, Asked(), {}, work / "texts"
    try:
        server = Server(program, work / "server", described(), "--audit", folder, "--endless", "--keep", str(KEPT))
        server.wait_until_ready()
        sessions = [(master, open_master(server.ports[1].listen, master)) for master in MASTERS]
        if locks:
            lock_all(asked, sessions[0][1], sessions[0][0])
        for master, session in sessions:
            for address in SLAVES:
                asked.ask(session, remembered(master, address, 0x6D))
        master, session = sessions[-1]
        while len(found) < parts:
            for count in range(BETWEEN):
                asked.ask(session, filling(master, SLAVES[0], 0x7D if count % 2 else 0x5D))
            add_places(folder, found)
        head = size_of_head(folder / max(found))
    finally:
        if server is not None:
            server.kill()
    waited = {place - 1 for place in found.values()}
    behind = [seconds for place, seconds in enumerate(asked.times) if place >= min(waited)]
    return [asked.times[place] for place in waited], behind, head


def show(name, times):
    """Writes the median and the 99th percentile of these times."""
    cuts = statistics.quantiles(times, n=100)
    median, most = statistics.median(times) * 1e3, max(times) * 1e3
    print(f"  {name}: median {median:.3f} ms, 99 percent {cuts[98] * 1e3:.3f}, most {most:.3f}")


def main(words):
    program, parts = Path(words[0]).resolve(), int(words[1]) if len(words) > 1 else 100
    kinds = ("short replies", slave_diag, check_first, False), ("the longest replies", read_inputs, read_inputs, True)
    for name, *requests, locks in kinds:
        with tempfile.TemporaryDirectory() as folder:
            waited, behind, head = reply_times(program, Path(folder), parts, *requests, locks)
        print(f"{name}, a head of {head} octets, {len(waited)} parts")
        show("the reply that waits for a part", waited)
        show("all replies", behind)
    return 0


if __name__ == "__main__":
    sys.exit(main(sys.argv[1:]))
