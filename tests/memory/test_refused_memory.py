"""Memory is refused to the program: it ends with status 3 and says so, or, if the memory suffices, as it does without a limit.

Memory is refused by a limit that is raised step by step, and by making each allocation fail in turn.
"""
import contextlib
import itertools
import os
import socket
import subprocess
import sys
import threading
import time
from pathlib import Path
from typing import NamedTuple

import pytest

from support.clients import free_ports
from support.processes import PATIENCE, Done
from support.racks import line, rack, slave

pytestmark = pytest.mark.slow

OUT_OF_MEMORY = Done(3, "", "rackd: out of memory\n")
# What tests/support/fail_allocation.py ends with if nothing failed, and if it cannot follow a program.
NOTHING_FAILED, CANNOT_FOLLOW = 96, 98
FAIL_ALLOCATION = Path(__file__).parents[1] / "support" / "fail_allocation.py"
SLAVE_DIAG = "m 100 68 05 05 68 81 E4 6D 3C 3E 4C 16\n"


def rack_of(lines=1, masters=1, slaves=1, last="", **keys):
    """Returns a rack of lines with masters from 100 and slaves from 1. `last` follows the keys of the last slave."""
    parts = [slave(address) for address in range(1, slaves + 1)]
    masters = list(range(100, 100 + masters))
    return rack(*(line(number, *parts, masters=masters, capacity=1000, **keys) for number in range(1, lines + 1))) + last


SMALL = rack_of() + "%%\n" + SLAVE_DIAG
LINES = rack_of(8, 16, 2) + "%%\n" + SLAVE_DIAG
COMMENTS = rack_of() + "%%\n" + "".join(f"# a comment, which is read and does nothing: {n}\n" for n in range(1, 5001))
NOISE = rack_of() + "%%\nm 100" + " 33" * 3000
BAD = "what is no rack"
BAD_KEY = rack_of(last="fail_safe = true\n")
HEADER = "rack-audit 2 line 1\n"
ENTRY = HEADER + "1 req 100 6805056881e46d3c3e4c16 | WaitPrm none | reply 680b0b68e481083e3c020500ff80a10e16 Done\n"
# Files that words name, which are written for each case.
FILES = {
    "rack": rack_of(),
    "one-place": rack_of().replace("capacity = 1000", "capacity = 1"),
    "script": SLAVE_DIAG + "journal\n",
    "audit": HEADER,
    "other": HEADER + "1 tick 1 | none | done\n",
    "entry": ENTRY,
}


class Case(NamedTuple):
    """Words of the program, in which `@NAME` is a file, its input, and by how many KiB the limit of memory grows."""

    words: str
    input: str = ""
    step: int = 4


LIMITED = {
    "help": Case("--help"),
    "version": Case("--version"),
    "a wrong word": Case("word"),
    "a bad rack": Case("", BAD),
    "a bad key": Case("", BAD_KEY),
    "a small rack": Case("", SMALL),
    "eight lines": Case("", LINES),
    "many comments": Case("", COMMENTS, 64),
    "noise": Case("", NOISE, 16),
    "two files": Case("run @rack @script"),
    "an operator and nobody": Case("operate 1"),
    "a check": Case("check @rack @audit"),
    "an explanation": Case("explain @rack @audit"),
    "a judgement": Case("judge @rack @entry"),
    "a capture": Case("capture @rack @entry"),
    "a GSD file": Case("gsd @rack 1 1"),
    "a slave of a GSD file": Case("slave @gsd --module Configuration_0"),
}
IN_TURN = {
    "help": Case("--help"),
    "a wrong word": Case("word"),
    "a bad rack": Case("", BAD),
    "a bad key": Case("", BAD_KEY),
    "a small rack": Case("", SMALL),
    "noise": Case("", NOISE),
    "two files": Case("run @rack @script"),
    "a check": Case("check @rack @audit"),
    "a check of a text that is not the policy": Case("check @rack @other"),
    "a rack whose fault is named": Case("check @one-place @audit"),
    "an explanation": Case("explain @rack @audit"),
    "an explanation of a slave": Case("explain @rack @audit --slave 1"),
    "an entry as a line of JSON": Case("explain @rack @entry --json"),
    "a judgement": Case("judge @rack @entry"),
    "a judgement as JUnit XML": Case("judge @rack @entry --junit --rules fcb-first"),
    "a capture": Case("capture @rack @entry"),
    "a GSD file": Case("gsd @rack 1 1"),
    "a slave of a GSD file": Case("slave @gsd --module Configuration_0"),
    "a text that is followed": Case("explain @rack @other --follow"),
}
SERVED = {"at once": "", "by the clock": "--tick 60000 --step 86400000"}


@pytest.fixture
def command(program, run, tmp_path):
    """A function that writes the files of a case, and returns its command."""
    def write(case):
        for name, text in FILES.items():
            (tmp_path / name).write_text(text, encoding="ascii")
        (tmp_path / "gsd").write_text(run("gsd", tmp_path / "rack", 1, 1).output, encoding="utf-8")
        words = [str(tmp_path / word[1:]) if word.startswith("@") else word.replace("_", " ") for word in case.words.split()]
        return [program, *words]

    return write


def run_command(command, case, **options):
    """Runs a command on the input of a case."""
    done = subprocess.run(command, input=case.input.encode(), capture_output=True, timeout=PATIENCE, check=False, **options)
    return Done(done.returncode, done.stdout.decode(errors="replace"), done.stderr.decode(errors="replace"))


def is_refused(done, whole):
    """Returns whether a run ended out of memory, and wrote nothing but the beginning of its whole output."""
    return done._replace(output="") == OUT_OF_MEMORY and whole.output.startswith(done.output)


# ---- a limit


def libraries():
    """Returns the folder of the C library. Named by LD_LIBRARY_PATH it is found without the loader's cache, whose pages would
    leave room for the first allocations."""
    for row in Path("/proc/self/maps").read_text(encoding="utf-8").splitlines():
        path = row.split(maxsplit=5)[-1]
        if "/libc.so" in path:
            return os.path.dirname(path)
    pytest.skip("the C library is not found")


def limited(kib, command, case):
    """Runs a command with no more than a number of KiB of memory, each allocation on pages of its own."""
    environment = {**os.environ, "GLIBC_TUNABLES": "glibc.malloc.mmap_threshold=1", "LD_LIBRARY_PATH": libraries()}
    return run_command(["prlimit", f"--as={kib * 1024}", "--", *command], case, env=environment)


def starts(done):
    """Returns whether a run came as far as the program: it was not killed before, and the loader found memory."""
    return 0 <= done.status < 126


def least_memory(command, case):
    """Returns the least number of KiB, in steps of a page, with which the program starts."""
    coarse = next(kib for kib in itertools.count(0, 256) if starts(limited(kib, command, case)))
    return next(kib for kib in itertools.count(max(0, coarse - 256), 4) if starts(limited(kib, command, case)))


@pytest.mark.parametrize("name", LIMITED)
def test_a_limit_that_is_raised(command, name):
    case = LIMITED[name]
    words = command(case)
    whole, refused = run_command(words, case), 0
    for kib in itertools.count(least_memory(words, case), case.step):
        done = limited(kib, words, case)
        if not is_refused(done, whole):
            break
        refused += 1
    assert done == whole
    assert refused > 0, "no run was out of memory"


# ---- one allocation


@contextlib.contextmanager
def connections_to(ports):
    """Connects to each port once, as soon as somebody listens there, until its end."""
    over = threading.Event()

    def connect_to(port):
        while not over.is_set():
            with contextlib.suppress(OSError), socket.create_connection(("127.0.0.1", port), 1):
                return
            time.sleep(0.002)

    threads = [threading.Thread(target=connect_to, args=(port,)) for port in ports]
    for thread in threads:
        thread.start()
    try:
        yield
    finally:
        over.set()
        for thread in threads:
            thread.join()


def run_with_connections(command, case, ports):
    with connections_to(ports):
        return run_command(command, case)


def fail_in_turn(command, case, ports=()):
    """Makes each allocation of a run fail in turn, and no other: the run ends out of memory, or as it does without that if it
    can do without this memory."""
    whole, refused = run_with_connections(command, case, ports), 0
    for number in itertools.count(1):
        done = run_with_connections([sys.executable, FAIL_ALLOCATION, str(number), *command], case, ports)
        if done.status == CANNOT_FOLLOW:
            pytest.skip("no program can be followed on this system (ptrace)")
        if done.status == NOTHING_FAILED:
            break
        if is_refused(done, whole):
            refused += 1
        else:
            assert done == whole, f"when allocation {number} fails alone"
    assert number > 1 and refused > 0, "no run was out of memory"


@pytest.mark.parametrize("name", IN_TURN)
def test_one_allocation_fails(command, name):
    case = IN_TURN[name]
    fail_in_turn(command(case), case)


@pytest.mark.parametrize("name", SERVED)
def test_one_allocation_of_a_rack_that_is_served_fails(command, tmp_path, name):
    case = Case(f"serve @served --sessions 1 {SERVED[name]}")
    words = command(case)
    ports = free_ports(2)
    (tmp_path / "served").write_text(rack_of(listen=ports[0], operator=ports[1]), encoding="ascii")
    fail_in_turn(words, case, ports)
