"""Writes of a program to audit texts, which a test holds up or refuses."""
import errno
import os
import threading

from support.watched_calls import CallWatch


def path_of(thread, descriptor):
    """Returns the path of an open file of a thread; nothing if it can't be read."""
    try:
        return os.readlink(f"/proc/{thread}/fd/{descriptor}")
    except OSError:
        return ""


class WatchedWrites(CallWatch):
    """Is asked before each write of a program to a file whose path has this end.

    Each of them is held up for `delay` seconds, or until `released` is set if that is None. From number `full` on, counted from
    0, it is refused: no space is left. `writes` counts them. A server gets it by `before=watch.ask`.
    """

    # write, pwrite64, writev
    CALLS = (1, 18, 20)

    def __init__(self, delay=0.0, full=None, end=".audit"):
        self.delay, self.full, self.writes, self.released = delay, full, 0, threading.Event()
        self._end = end
        super().__init__()

    def asked(self, question):
        if not path_of(question.thread, question.words[0]).endswith(self._end):
            self.go_on(question)
            return
        error = errno.ENOSPC if self.full is not None and self.writes >= self.full else 0
        self.writes += 1
        self.hold(question, self.delay or 0, self.released if self.delay is None else None, error)
