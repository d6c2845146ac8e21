"""Calls of a program to the system, which a test holds up, refuses, or lets go on (seccomp, Linux on x86-64).

An answer that is sent before its row is written, or a file that another program makes at the wrong moment, shows only by chance.
So a test is asked before each such call of the program, and decides when it goes on.
"""
import contextlib
import ctypes
import fcntl
import functools
import os
import platform
import select
import socket
import struct
import subprocess
import threading
import time
from typing import NamedTuple, Tuple

import pytest

X86_64, SECCOMP = 0xC000003E, 317
NO_NEW_PRIVS, SET_FILTER, WITH_LISTENER = 38, 1, 8
LOAD, JUMP_IF, ANSWER = 0x20, 0x15, 0x06
ALLOW, ASK = 0x7FFF0000, 0x7FC00000
# The requests of ioctl by which a question is received and its reply is sent, and what both have.
RECEIVE, SEND, QUESTION, REPLY = 0xC0502100, 0xC0182101, struct.Struct("<QIIiIQ6Q"), struct.Struct("<QqiI")
# Seconds after which what a test has changed is looked at, while questions are held.
OFTEN = 0.01
# The number of no call.
NO_CALL = 1023

libc = ctypes.CDLL(None, use_errno=True)


class Question(NamedTuple):
    """A call of the program that waits for an answer: the thread that makes it, the call, and its words."""

    number: int
    thread: int
    call: int
    words: Tuple[int, ...]


class Filter:
    """Has the process that calls `ask`, and the program that it becomes, ask at `here` before it makes one of these calls."""

    def __init__(self, calls):
        many = len(calls)
        steps = [(LOAD, 0, 0, 4), (JUMP_IF, 0, many + 1, X86_64), (LOAD, 0, 0, 0)]
        steps += [(JUMP_IF, many - place, 0, call) for place, call in enumerate(calls)]
        steps += [(ANSWER, 0, 0, ALLOW), (ANSWER, 0, 0, ASK)]
        code = b"".join(struct.pack("<HBBI", *step) for step in steps)
        # all of this is made before the process is there, which is to do as little as possible
        self._code = ctypes.create_string_buffer(code, len(code))
        self._program = struct.pack("@HxxxxxxP", len(steps), ctypes.addressof(self._code))
        self.here, self._there = socket.socketpair()

    def ask(self):
        """Is called in the process, before it becomes the program."""
        if libc.prctl(NO_NEW_PRIVS, 1, 0, 0, 0) == 0:
            questions = libc.syscall(SECCOMP, SET_FILTER, WITH_LISTENER, self._program)
            if questions >= 0:
                socket.send_fds(self._there, [b"."], [questions])
                return
        raise OSError(ctypes.get_errno(), "no filter")

    def close(self):
        self.here.close()
        self._there.close()


@functools.lru_cache(maxsize=None)
def can_watch():
    """Returns whether the calls of a program can be watched on this machine."""
    if platform.system() != "Linux" or platform.machine() != "x86_64":
        return False
    tried = Filter([NO_CALL])
    try:
        return subprocess.run(["/bin/sh", "-c", ":"], preexec_fn=tried.ask, check=False).returncode == 0
    except subprocess.SubprocessError:
        return False
    finally:
        tried.close()


class CallWatch(threading.Thread):
    """Is asked before each call of CALLS of one program. A server gets it by `before=watch.ask`.

    `asked` decides about a question: by `go_on`, `refuse`, or `hold`. The test is skipped if calls can't be watched.
    """

    CALLS: Tuple[int, ...] = ()

    def __init__(self):
        super().__init__(daemon=True)
        if not can_watch():
            pytest.skip("calls of a program can't be watched on this machine: it has no filters (seccomp)")
        self._filter, self._held, self._questions = Filter(self.CALLS), [], None
        self.ask = self._filter.ask
        self.start()

    def asked(self, question):
        """Decides about a question."""
        raise NotImplementedError

    def go_on(self, question):
        """Lets the call go on."""
        self._reply(question, 0, 0, goes_on=True)

    def refuse(self, question, error):
        """Has the call fail with an error of the system, or return 0 if the error is 0."""
        self._reply(question, 0, -error, goes_on=False)

    def take_part(self, question, count):
        """Has a write say that it has taken this number of octets, which it has not."""
        self._reply(question, count, 0, goes_on=False)

    def hold(self, question, seconds=0.0, released=None, error=0):
        """Holds up the call for a number of seconds, or until an event is set. Then it goes on, or fails with the error."""
        self._held.append((time.monotonic() + seconds, released, question, error))

    def _reply(self, question, result, error, goes_on):
        # who asked may be gone
        with contextlib.suppress(OSError):
            fcntl.ioctl(self._questions, SEND, REPLY.pack(question.number, result, error, goes_on))

    def run(self):
        """Answers until the program has ended."""
        _, found, _, _ = socket.recv_fds(self._filter.here, 1, 1)
        self._filter.close()
        if not found:
            return
        self._questions = found[0]
        waiting = select.poll()
        waiting.register(self._questions, select.POLLIN)
        while True:
            for _, event in waiting.poll(self._milliseconds()):
                if event & select.POLLHUP:
                    os.close(self._questions)
                    return
                self._take()
            self._end_holds()

    def _milliseconds(self):
        """Returns how long the next question may be waited for; None without a limit."""
        if not self._held:
            return None
        first = min((until for until, released, _, _ in self._held if released is None), default=float("inf"))
        return 1000 * max(0, min(first - time.monotonic(), OFTEN))

    def _take(self):
        question = bytearray(QUESTION.size)
        try:
            fcntl.ioctl(self._questions, RECEIVE, question)
        except OSError:
            # who asked is gone
            return
        number, thread, _, call, _, _, *words = QUESTION.unpack(question)
        self.asked(Question(number, thread, call, tuple(words)))

    def _end_holds(self):
        """Ends what is held up for long enough."""
        held, self._held = self._held, []
        for until, released, question, error in held:
            if not (time.monotonic() >= until if released is None else released.is_set()):
                self._held.append((until, released, question, error))
            elif error:
                self.refuse(question, error)
            else:
                self.go_on(question)
