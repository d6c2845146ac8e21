"""Reads and writes of a program at its sockets, which a test notes, refuses or holds up."""
import errno
import threading

from support.watched_calls import CallWatch
from support.watched_writes import path_of


class WatchedSockets(CallWatch):
    """Is asked before each read and write of a program at a socket. A server gets it by `before=watch.ask`.

    At first all go on. After `fail_next_read` or `fail_write` one of them fails with an error of the system, and after
    `hold_next_write` one write is held up until `released` is set; `is_held` is set then.
    """

    SEND, RECEIVE = 44, 45
    CALLS = (SEND, RECEIVE)

    def __init__(self):
        self.is_held, self.released = threading.Event(), threading.Event()
        self._reads_fail, self._writes_left, self._taken, self._is_to_be_held = False, None, 0, False
        super().__init__()

    def fail_next_read(self):
        """Has the next read fail."""
        self._reads_fail = True

    def fail_write(self, behind=0, taken=0):
        """Has the write behind this number of further ones fail, or the next one if this write has taken some octets.

        The client gets none of these.
        """
        self._writes_left, self._taken = behind, taken

    def hold_next_write(self):
        """Holds up the next write."""
        self._is_to_be_held = True

    def asked(self, question):
        if question.call == self.RECEIVE and self._reads_fail:
            self._reads_fail = False
            self.refuse(question, errno.EIO)
        elif question.call == self.SEND:
            self._asked_to_write(question)
        else:
            self.go_on(question)

    def _asked_to_write(self, question):
        if self._is_to_be_held:
            self._is_to_be_held = False
            self.hold(question, released=self.released)
            self.is_held.set()
            return
        if self._writes_left is None:
            self.go_on(question)
        elif self._writes_left == 0 and self._taken:
            self.take_part(question, self._taken)
            self._taken = 0
        elif self._writes_left == 0:
            self._writes_left = None
            self.refuse(question, errno.EIO)
        else:
            self._writes_left -= 1
            self.go_on(question)


class CallOrder(CallWatch):
    """Notes in which order a program reads from sockets, writes to sockets, and writes rows of audit texts.

    `calls` has a word for each of them, `read`, `write` or `row`; reads that follow each other are one, as a read that waits is
    tried again.
    """

    WRITE = 1
    CALLS = (WRITE, WatchedSockets.SEND, WatchedSockets.RECEIVE)

    def __init__(self):
        self.calls = []
        super().__init__()

    def asked(self, question):
        word = self._word(question)
        if word is not None and not (word == "read" and self.calls[-1:] == ["read"]):
            self.calls.append(word)
        self.go_on(question)

    def _word(self, question):
        if question.call == WatchedSockets.RECEIVE:
            return "read"
        if question.call == WatchedSockets.SEND:
            return "write"
        return "row" if path_of(question.thread, question.words[0]).endswith(".audit") else None
