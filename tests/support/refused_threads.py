#!/usr/bin/env python3
"""Runs a program that gets only a number of threads, as words before those of the program, or by `wrapper`.

usage: refused_threads.py COUNT[,REFUSED] PROGRAM [WORD..]

The first COUNT threads that the program starts are as ever. The system refuses the next REFUSED threads, or all further
ones if REFUSED is missing. The program takes the place of this process, so it ends with the program's status; it ends with
98 if Linux can't be asked for that. Linux on x86-64: a filter (seccomp) asks another process about each new thread.
"""
import ctypes
import errno
import fcntl
import os
import select
import signal
import socket
import struct
import subprocess
import sys

# The status if Linux can't be asked to refuse threads.
CANNOT_REFUSE = 98

X86_64 = 0xC000003E
CLONE, CLONE3, SECCOMP = 56, 435, 317
NO_NEW_PRIVS, SET_FILTER, WITH_LISTENER = 38, 1, 8
LOAD, JUMP_IF, ANSWER = 0x20, 0x15, 0x06
ALLOW, ASK = 0x7FFF0000, 0x7FC00000
# A question has 80 octets, of which its number is the first 8; an answer has number, result, error, and whether to go on.
RECEIVE, SEND, QUESTION, NUMBER, REPLY = 0xC0502100, 0xC0182101, 80, "<Q", "<QqiI"

libc = ctypes.CDLL(None, use_errno=True)


def wrapper(count, refused=None):
    """Returns the words before those of a program that gets this number of threads, after which these are refused."""
    return [sys.executable, __file__, str(count) if refused is None else f"{count},{refused}"]


def can_be_refused():
    """Returns whether threads can be refused on this machine."""
    done = subprocess.run([*wrapper(0), "/bin/sh", "-c", ":"], stdin=subprocess.DEVNULL, capture_output=True, check=False)
    return done.returncode != CANNOT_REFUSE


def filter_steps():
    """Returns the steps of a filter that asks about the two calls by which a thread is started, and their number."""
    steps = [
        (LOAD, 0, 0, 4),
        (JUMP_IF, 0, 3, X86_64),
        (LOAD, 0, 0, 0),
        (JUMP_IF, 2, 0, CLONE),
        (JUMP_IF, 1, 0, CLONE3),
        (ANSWER, 0, 0, ALLOW),
        (ANSWER, 0, 0, ASK),
    ]
    return b"".join(struct.pack("<HBBI", *step) for step in steps), len(steps)


def ask_before_threads():
    """Has this process ask before it starts a thread, and returns the descriptor at which the questions come."""
    code, count = filter_steps()
    text = ctypes.create_string_buffer(code, len(code))
    program = struct.pack("@HxxxxxxP", count, ctypes.addressof(text))
    if libc.prctl(NO_NEW_PRIVS, 1, 0, 0, 0) == 0:
        questions = libc.syscall(SECCOMP, SET_FILTER, WITH_LISTENER, program)
        if questions >= 0:
            return questions
    print("no filter:", os.strerror(ctypes.get_errno()), file=sys.stderr)
    sys.exit(CANNOT_REFUSE)


def answer_all(questions, count, refused):
    """Allows the first `count` threads, refuses the next ones, and allows those after them, until the process has ended."""
    asked_before = 0
    waiting = select.poll()
    waiting.register(questions, select.POLLIN)
    while not waiting.poll()[0][1] & select.POLLHUP:
        question = bytearray(QUESTION)
        fcntl.ioctl(questions, RECEIVE, question)
        number, = struct.unpack_from(NUMBER, question)
        go_on = not count <= asked_before < count + refused
        asked_before += 1
        fcntl.ioctl(questions, SEND, struct.pack(REPLY, number, 0, 0 if go_on else -errno.EAGAIN, go_on))


def main(numbers, command):
    """Becomes the program, while a child of this process answers the questions about its threads."""
    count, _, refused = numbers.partition(",")
    count, refused = int(count), float(refused or "inf")
    here, there = socket.socketpair()
    if os.fork() == 0:
        os.close(1)
        here.close()
        _, questions, _, _ = socket.recv_fds(there, 1, 1)
        if questions:
            answer_all(questions[0], count, refused)
        return
    there.close()
    signal.signal(signal.SIGPIPE, signal.SIG_DFL)
    socket.send_fds(here, [b"."], [ask_before_threads()])
    here.close()
    os.execv(command[0], command)


if __name__ == "__main__":
    main(sys.argv[1], sys.argv[2:])
