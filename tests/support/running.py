"""A program that runs beside a test, with pipes or files of the test for its standard streams."""
import contextlib
import os
import select
import signal
import subprocess

from support.processes import PATIENCE
from support.servers import PR_SET_PDEATHSIG, libc
from support.sleeping import left_in_pipe, peak_memory, wait_until_asleep


class Stream:
    """What comes from a file of a program. It is read only as far as a test asks for it."""

    def __init__(self, file):
        self.file, self.is_over = file, file is None
        self._octets = bytearray()

    def _read(self, within):
        """Reads what comes next. How long all of it takes is no matter: a machine that is busy is no fault of the program."""
        assert select.select([self.file], [], [], within)[0], f"nothing comes behind {bytes(self._octets[-200:])}"
        try:
            more = os.read(self.file.fileno(), 65536)
        except OSError:
            # nobody has the other side of a terminal any more
            more = b""
        self._octets += more
        self.is_over = not more

    def row(self, within=PATIENCE):
        """Returns the next row, without its LF."""
        while b"\n" not in self._octets:
            assert not self.is_over, f"the stream has ended with {bytes(self._octets)}"
            self._read(within)
        end = self._octets.index(b"\n")
        row = self._octets[:end].decode(errors="backslashreplace")
        del self._octets[:end + 1]
        return row

    def rows(self, count):
        """Returns the next rows."""
        return [self.row() for _ in range(count)]

    def take(self, count, within=PATIENCE):
        """Returns this number of octets."""
        while len(self._octets) < count:
            assert not self.is_over, f"the stream has ended after {len(self._octets)} of {count} octets"
            self._read(within)
        octets = bytes(self._octets[:count])
        del self._octets[:count]
        return octets

    def rest(self, within=PATIENCE):
        """Returns all that was not read yet, once nothing comes any more."""
        while not self.is_over:
            self._read(within)
        text = self._octets.decode(errors="backslashreplace")
        self._octets.clear()
        return text

    def so_far(self):
        """Returns what has come and was not taken, without waiting."""
        while not self.is_over and select.select([self.file], [], [], 0)[0]:
            self._read(PATIENCE)
        return self._octets.decode(errors="backslashreplace")


class Running:
    """A program that runs, and ends with this process at the latest.

    `closed` is a descriptor that is closed before it starts, and `before` is called in the process before it becomes the program.
    """

    def __init__(self, words, *, stdin=subprocess.PIPE, stdout=subprocess.PIPE, stderr=subprocess.PIPE, closed=None, before=None):
        def prepare():
            libc.prctl(PR_SET_PDEATHSIG, signal.SIGKILL)
            if closed is not None:
                os.close(closed)
            if before is not None:
                before()

        self.process = subprocess.Popen([str(word) for word in words], bufsize=0, stdin=stdin, stdout=stdout, stderr=stderr,
                                        preexec_fn=prepare)
        self.output, self.errors = Stream(self.process.stdout), Stream(self.process.stderr)

    @property
    def pid(self):
        return self.process.pid

    def write(self, octets):
        """Writes octets to its standard input. How it ended, if it has ended, is found elsewhere."""
        rest = memoryview(octets)
        with contextlib.suppress(BrokenPipeError):
            while rest:
                rest = rest[self.process.stdin.write(rest):]

    def end_input(self):
        self.process.stdin.close()

    def write_all(self, octets):
        """Writes all of its standard input."""
        self.write(octets)
        self.end_input()

    def write_what_is_taken(self, octets):
        """Writes octets to its standard input until no more are taken, and it sleeps; returns how many are in the pipe or read.

        Fails if all are taken.
        """
        descriptor, sent = self.process.stdin.fileno(), 0
        os.set_blocking(descriptor, False)
        while True:
            try:
                sent += os.write(descriptor, octets[sent:sent + 65536])
                assert sent < len(octets), f"all {sent} octets are taken"
            except BlockingIOError:
                wait_until_asleep(self.pid)
                if not select.select([], [descriptor], [], 0)[1]:
                    break
        os.set_blocking(descriptor, True)
        return sent

    def has_read_input(self):
        """Returns whether it has read all of its standard input so far."""
        return left_in_pipe(self.process.stdin) == 0

    def wait_until_asleep(self):
        """Waits for a moment at which all of its threads sleep."""
        wait_until_asleep(self.pid)

    def peak_memory(self):
        return peak_memory(self.pid)

    def send_signal(self, number):
        self.process.send_signal(number)

    @contextlib.contextmanager
    def stopped(self):
        """It stands still meanwhile."""
        self.send_signal(signal.SIGSTOP)
        os.waitid(os.P_PID, self.pid, os.WSTOPPED | os.WEXITED | os.WNOWAIT)
        yield
        self.send_signal(signal.SIGCONT)

    def wait(self, within=PATIENCE):
        """Waits until it ends, and returns its status."""
        try:
            return self.process.wait(within)
        except subprocess.TimeoutExpired:
            raise AssertionError(f"it doesn't end within {within} seconds; it wrote {self.errors.so_far()!r}") from None

    def kill(self):
        """Ends it as `kill -9` does. A second call does nothing."""
        self.process.kill()
        self.process.wait()
        for stream in self.process.stdin, self.process.stdout, self.process.stderr:
            if stream is not None:
                stream.close()
