#!/usr/bin/env python3
"""Runs a program with one of its allocations failing.

usage: fail_allocation.py N PROGRAM [WORD..]

The Nth call of malloc or realloc that the program itself makes gives no memory; all others work. With N above the
number of its calls nothing fails. It ends with the program's status, with 96 where nothing failed, 97 where the
program was killed, 98 where it can't be traced here. Linux on x86-64; it follows the program by ptrace.
"""
import ctypes
import os
import signal
import struct
import sys

TRACEME, PEEK, POKE, CONT, STEP, GETREGS, SETREGS = 0, 1, 4, 7, 9, 12, 13
AT_ENTRY = 9
RAX, RIP, RSP = 10, 16, 19
TRAP = 0xCC

libc = ctypes.CDLL(None, use_errno=True)
libc.ptrace.restype = ctypes.c_long
libc.ptrace.argtypes = [ctypes.c_long, ctypes.c_long, ctypes.c_void_p, ctypes.c_void_p]


class Untraceable(Exception):
    pass


def ptrace(request, pid, address=0, data=0):
    ctypes.set_errno(0)
    answer = libc.ptrace(request, pid, address, data)
    if answer == -1 and ctypes.get_errno():
        raise Untraceable(os.strerror(ctypes.get_errno()))
    return answer & 0xFFFFFFFFFFFFFFFF


def registers(pid):
    block = (ctypes.c_ulonglong * 27)()
    ptrace(GETREGS, pid, 0, ctypes.addressof(block))
    return block


def maps(pid):
    with open(f"/proc/{pid}/maps") as lines:
        for line in lines:
            words = line.split()
            if len(words) == 6:
                start, end = (int(word, 16) for word in words[0].split("-"))
                yield start, end, int(words[2], 16), words[5]


def span(pid, is_file):
    """The file's path in memory, and where its pages begin and end."""
    found = [entry for entry in maps(pid) if is_file(entry[3])]
    if not found:
        raise Untraceable("a file is not in memory")
    return found[0][3], found[0][0] - found[0][2], found[-1][1]


def is_libc(path):
    return os.path.basename(path).startswith("libc.so")


class Traced:
    def __init__(self, words):
        self.pid = os.fork()
        if self.pid == 0:
            libc.ptrace(TRACEME, 0, 0, 0)
            os.execv(words[0], words)
        self.wait()
        self.saved = {}

    def wait(self):
        """Waits for the next stop; None, or the status where the program has ended."""
        _, status = os.waitpid(self.pid, 0)
        if os.WIFEXITED(status):
            return os.WEXITSTATUS(status)
        if os.WIFSIGNALED(status):
            return 97
        self.signal = os.WSTOPSIG(status)
        return None

    def set_trap(self, address):
        word = ptrace(PEEK, self.pid, address)
        self.saved[address] = word
        ptrace(POKE, self.pid, address, word & ~0xFF | TRAP)

    def clear_trap(self, address):
        ptrace(POKE, self.pid, address, self.saved.pop(address))

    def go_on(self, request=CONT):
        passed_on = 0 if self.signal == signal.SIGTRAP else self.signal
        ptrace(request, self.pid, 0, passed_on)
        return self.wait()

    def trapped_at(self):
        """The registers and the address of the trap that stopped the program, if one did."""
        if self.signal != signal.SIGTRAP:
            return None, None
        block = registers(self.pid)
        address = block[RIP] - 1
        return block, address if address in self.saved else None

    def step_over(self, block, address):
        self.clear_trap(address)
        block[RIP] = address
        ptrace(SETREGS, self.pid, 0, ctypes.addressof(block))
        status = self.go_on(STEP)
        if status is None:
            self.set_trap(address)
        return status

    def give_nothing(self, block):
        """Returns from the function that was just entered with a null pointer."""
        block[RIP] = ptrace(PEEK, self.pid, block[RSP])
        block[RSP] += 8
        block[RAX] = 0
        ptrace(SETREGS, self.pid, 0, ctypes.addressof(block))


def entry_point(pid):
    with open(f"/proc/{pid}/auxv", "rb") as vector:
        for key, value in struct.iter_unpack("QQ", vector.read()):
            if key == AT_ENTRY:
                return value
    raise Untraceable("no entry point")


def allocators(pid):
    """Where the program's C library has malloc and realloc: as far into it as into the one that runs this script."""
    path, base, _ = span(pid, is_libc)
    own_path, own_base, _ = span("self", is_libc)
    if os.path.realpath(path) != os.path.realpath(own_path):
        raise Untraceable("another C library")
    # by the library's name: some programs that run this have functions of these names at addresses of their own
    library = ctypes.CDLL("libc.so.6")
    for function in (library.malloc, library.realloc):
        yield ctypes.cast(function, ctypes.c_void_p).value - own_base + base


def run(number, words):
    program = os.path.realpath(words[0])
    traced = Traced(words)
    traced.signal = signal.SIGTRAP
    entry = entry_point(traced.pid)
    traced.set_trap(entry)
    if traced.go_on() is not None:
        return 98
    block, _ = traced.trapped_at()
    traced.clear_trap(entry)
    block[RIP] = entry
    ptrace(SETREGS, traced.pid, 0, ctypes.addressof(block))
    for address in list(allocators(traced.pid)):
        traced.set_trap(address)
    _, start, end = span(traced.pid, lambda path: path == program)
    calls = 0
    status = traced.go_on()
    while status is None:
        block, address = traced.trapped_at()
        own = address is not None and start <= ptrace(PEEK, traced.pid, block[RSP]) < end
        calls += own
        if own and calls == number:
            traced.give_nothing(block)
            status = traced.go_on()
        elif address is not None:
            status = traced.step_over(block, address)
            if status is None:
                status = traced.go_on()
        else:
            status = traced.go_on()
    return status if calls >= number else 96


if __name__ == "__main__":
    try:
        sys.exit(run(int(sys.argv[1]), sys.argv[2:]))
    except (Untraceable, OSError) as why:
        print(f"fail_allocation: {why}", file=sys.stderr)
        sys.exit(98)
