#!/usr/bin/env python3
"""Measures what a cable without faults adds to the time of a reply: the median and the 99th percentile over FDL statuses,
with and without the cable, in turn. It is no test.

usage: cable_speed.py PROGRAM [COUNT]
"""
import os
import statistics
import sys
import tempfile
import time
from pathlib import Path

sys.dont_write_bytecode = True
TESTS = Path(__file__).resolve().parent.parent
sys.path[:0] = [str(TESTS), str(TESTS.parent / "python")]

from support.cables import Cable, open_plain_session, poll, poll_reply, take
from support.racks import usual_rack
from support.servers import Server

# The rounds in which both ways are measured in turn.
ROUNDS = 5


def times(port, count, address):
    """Returns the microseconds of each exchange of a master."""
    master, request, reply, taken = open_plain_session(port, address), poll(5, address), poll_reply(5, address), []
    for _ in range(count):
        start = time.perf_counter()
        master.sendall(request)
        octets = take(master, len(reply))
        taken.append((time.perf_counter() - start) * 1e6)
        assert octets == reply
    master.close()
    return taken


def measured(program, folder, count):
    """Returns the microseconds of all exchanges without the cable, and with it."""
    server = Server(program, folder / "server", usual_rack(), "--audit", folder / "audit", "--endless").wait_until_ready()
    cable = Cable(program, folder / "cable", server.ports[1].listen).wait_until_ready()
    direct, through = [], []
    try:
        for _ in range(ROUNDS):
            direct += times(server.ports[1].listen, count, 1)
            through += times(cable.listen, count, 2)
    finally:
        cable.kill()
        server.kill()
    return direct, through


def main(words):
    program, count = os.path.abspath(words[0]), int(words[1]) if len(words) > 1 else 2000
    with tempfile.TemporaryDirectory() as folder:
        direct, through = measured(program, Path(folder), count)
    for name, taken in ("without", direct), ("with", through):
        print(f"{name} the cable: median {statistics.median(taken):.0f} us, 99 percent {statistics.quantiles(taken, n=100)[98]:.0f} us")
    print(f"added at the median: {statistics.median(through) - statistics.median(direct):.0f} us")
    return 0


if __name__ == "__main__":
    sys.exit(main(sys.argv[1:]))
