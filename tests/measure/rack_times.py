#!/usr/bin/env python3
"""Measures how long a rack of the Python package takes to be ready, and to close.

usage: rack_times.py [PROGRAM [COUNT]]

Starts a rack of one line and three slaves COUNT times (50 if it is missing), one after another, and has master 1
exchange data once with each. It writes the median, the lowest and the highest time: from the start of the rack to
`ready`, and from the call of `close` to its return, in which the rack ends and `check` reads the journal.
"""
import statistics
import sys
import time
from pathlib import Path

sys.dont_write_bytecode = True
sys.path.insert(0, str(Path(__file__).resolve().parents[2] / "python"))
from rackd import SAMPLE, Rack  # noqa: E402

COUNT = 50


def times(program):
    """The milliseconds of one rack: until it is ready, and to close it."""
    begun = time.perf_counter()
    rack = Rack(SAMPLE, program=program)
    ready = time.perf_counter()
    master = rack.line(1).master(1)
    master.bring_up(5, 0x80A1, bytes.fromhex("2111"))
    master.data_exchange(5, b"\x12\x34")
    closing = time.perf_counter()
    rack.close()
    return 1000 * (ready - begun), 1000 * (time.perf_counter() - closing)


def main(words):
    """Measures and writes two rows."""
    program = words[0] if words else None
    count = int(words[1]) if len(words) > 1 else COUNT
    for name, values in zip(("start to ready", "close"), zip(*(times(program) for _ in range(count)))):
        print(f"{name}: median {statistics.median(values):.1f} ms, {min(values):.1f} to {max(values):.1f}, of {count}")


if __name__ == "__main__":
    main(sys.argv[1:])
