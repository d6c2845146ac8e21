#!/usr/bin/env python3
"""Prints which functions take the time of the checks that run now.

    tests/measure/function_times.py [COUNT]

While a check runs, it keeps what it has checked in a folder of its own below the folder for temporary files, one file for
each part of a function. The time between two files is that of the later one's function. For each check there is a row with
its crate and the seconds so far, then the COUNT slowest functions, 20 if no number is given. A function that is under way
is missing, and of a check that has several jobs only what its first process does is seen.
"""
import collections
import os
import re
import sys
import tempfile

FOLDER = re.compile(r"rattle-logic-built-locked-(\d+)-\d+")
# The part of a function has a name that begins with a capital letter, or it is the function's contract.
MODULE = re.compile(r"Rattle-\w+-(?:proofs|specs\.contracts)\.(.+)\.oantt")


def crate_of(process):
    """The crate that a process checks; nothing if it has ended."""
    try:
        with open(f"/proc/{process}/cmdline", encoding="utf-8", errors="replace") as file:
            words = file.read().split("\0")
    except OSError:
        return None
    tests = " with its tests" if "--test" in words else ""
    return words[words.index("--crate-name") + 1] + tests if "--crate-name" in words else None


def function_of(name):
    """The function that a file belongs to; the name of the file where it belongs to none."""
    module = MODULE.fullmatch(name)
    if module is None:
        return name
    parts = module[1].split(".")
    if len(parts) > 1 and parts[-1][0].isupper():
        parts.pop()
    return "::".join(parts)


def seconds_of(folder):
    """The seconds of each function whose parts are in a folder, and of all."""
    files = sorted((entry.stat().st_mtime_ns, entry.name) for entry in os.scandir(folder))
    seconds = collections.Counter()
    for (before, _), (after, name) in zip(files, files[1:]):
        seconds[function_of(name)] += (after - before) / 1e9
    return seconds


def main():
    count = int(sys.argv[1]) if len(sys.argv) > 1 else 20
    for entry in sorted(os.scandir(tempfile.gettempdir()), key=lambda entry: entry.name):
        folder = FOLDER.fullmatch(entry.name)
        crate = crate_of(folder[1]) if folder else None
        if crate is not None:
            seconds = seconds_of(entry.path)
            print(f"{crate}: {sum(seconds.values()):.0f} s")
            for function, taken in seconds.most_common(count):
                print(f"{taken:7.1f}  {function}")


if __name__ == "__main__":
    main()
