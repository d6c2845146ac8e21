#!/usr/bin/env python3
"""Runs a command, the gate for example, and prints what it took by crate and part.

    tests/measure/gate_times.py ./test

The table has the processor seconds of each crate: its proof, the proof of its tests, and its must-fail edits (with the
check that these begin with); the most memory that one process of the crate took, and when its last one ended. It comes
on standard error when the command has ended, and the exit status is the command's. Processes are looked at twice a
second, so up to half a second of each is missed; the sum at the end is the system's own and misses nothing.
"""

import collections
import os
import resource
import subprocess
import sys
import threading
import time

PARTS = ("proof", "tests", "edits", "other")
TICKS = os.sysconf("SC_CLK_TCK")
PAGE = os.sysconf("SC_PAGE_SIZE")


def read(path):
    """What a file of /proc has, or nothing where its process is gone."""
    try:
        with open(path, "rb") as file:
            return file.read()
    except OSError:
        return b""


def part_of(process):
    """The crate and the part that a process works for."""
    words = read(f"/proc/{process}/cmdline").decode(errors="replace").split("\0")
    if not words[0].endswith("/rattle") or "--crate-name" not in words:
        return "-", "other"
    crate = words[words.index("--crate-name") + 1]
    try:
        folder = os.readlink(f"/proc/{process}/cwd")
    except OSError:
        folder = ""
    if "/rt-edit-" in folder:
        return crate, "edits"
    return crate, "tests" if "--test" in words else "proof"


def look(top, seen):
    """Notes of each process below this one what it has used so far: key, seconds, octets, and now."""
    parents, used = {}, {}
    for name in os.listdir("/proc"):
        if name.isdigit():
            fields = read(f"/proc/{name}/stat").rpartition(b")")[2].split()
            if fields:
                parents[int(name)] = int(fields[1])
                used[int(name)] = (int(fields[11]) + int(fields[12])) / TICKS, int(fields[21]) * PAGE, fields[19]
    for process in parents:
        above = process
        while above in parents and above != top:
            above = parents[above]
        if above == top:
            seconds, memory, begun = used[process]
            # a number is given again to a later process
            known = seen.get((process, begun), (("-", "other"), 0, 0, 0))
            key = known[0] if known[0][0] != "-" else part_of(process)
            seen[process, begun] = key, seconds, max(memory, known[2]), time.monotonic()


def table(seen, start):
    """The lines of the table."""
    seconds, memory, ended = collections.Counter(), collections.Counter(), collections.Counter()
    for (crate, part), used, most, last in seen.values():
        seconds[crate, part] += used
        memory[crate] = max(memory[crate], most)
        ended[crate] = max(ended[crate], last - start)
    yield f"{'crate':16}" + "".join(f"{it:>8}" for it in PARTS) + f"{'all':>8}{'GB':>6}{'ended':>8}"
    for crate in sorted(ended, key=ended.get):
        row = [seconds[crate, it] for it in PARTS]
        yield f"{crate:16}" + "".join(f"{it:8.0f}" for it in [*row, sum(row)]) + f"{memory[crate] / 1e9:6.1f}{ended[crate] / 60:6.1f} m"
    sums = [sum(seconds[crate, it] for crate in ended) for it in PARTS]
    yield f"{'all':16}" + "".join(f"{it:8.0f}" for it in [*sums, sum(sums)])


def main(words):
    start, seen = time.monotonic(), {}
    command = subprocess.Popen(words)
    has_ended = threading.Event()

    def watch():
        while not has_ended.wait(0.5):
            look(command.pid, seen)

    watcher = threading.Thread(target=watch)
    watcher.start()
    status = command.wait()
    has_ended.set()
    watcher.join()
    print("\n".join(table(seen, start)), file=sys.stderr)
    used = resource.getrusage(resource.RUSAGE_CHILDREN)
    minutes = (time.monotonic() - start) / 60
    print(f"{minutes:.1f} minutes, {(used.ru_utime + used.ru_stime) / 60:.1f} processor minutes", file=sys.stderr)
    return status


if __name__ == "__main__":
    sys.exit(main(sys.argv[1:]))
