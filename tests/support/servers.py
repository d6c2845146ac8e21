"""The program `rackd serve` as a process of a test."""
import ctypes
import os
import resource
import select
import signal
import subprocess
import time
from pathlib import Path
from typing import NamedTuple

from rackd.master import Master
from rackd.operator import Operator

from support.processes import PATIENCE, Done

PR_SET_PDEATHSIG = 1
libc = ctypes.CDLL(None, use_errno=True)


class Ports(NamedTuple):
    """The two ports of a line."""

    listen: int
    operator: int


class Server:
    """A process of `rackd serve`. It ends with this process at the latest.

    `folder` has its files: `rack.toml`, `ports`, `errors`, and `audit` if it is named by `--audit`. `ports` has the ports
    of each line by its number, once it is ready. `limits` are pairs of a limit of `resource` and its number; `before` is
    called in the process before it becomes the program; `wrapper` are words before those of the program. With `piped`
    its standard input is a pipe, which `end_input` closes; otherwise it is empty.
    """

    def __init__(self, program, folder, text, *words, limits=(), before=None, wrapper=(), piped=False, names_ports=True, env=None,
                 ignores=()):
        self.folder = Path(folder)
        self.folder.mkdir(parents=True)
        self.rack = self.folder / "rack.toml"
        self.rack.write_text(text, encoding="utf-8")
        self.ports = {}
        self._names_ports = names_ports
        self._error_file = self.folder / "errors"
        named = ["--ports", self.folder / "ports"] if names_ports else []
        command = [*wrapper, program, "serve", self.rack, *named, *words]

        def prepare():
            libc.prctl(PR_SET_PDEATHSIG, signal.SIGKILL)
            for number in ignores:
                signal.signal(number, signal.SIG_IGN)
            for kind, most in limits:
                resource.setrlimit(kind, (most, most))
            if before is not None:
                before()

        with open(self._error_file, "wb") as errors:
            self.process = subprocess.Popen([str(word) for word in command], bufsize=0, env=env, preexec_fn=prepare,
                                            stdin=subprocess.PIPE if piped else subprocess.DEVNULL,
                                            stdout=subprocess.PIPE, stderr=errors)

    @property
    def pid(self):
        return self.process.pid

    @property
    def audit(self):
        """The folder that tests name by `--audit`."""
        return self.folder / "audit"

    def errors(self):
        """Returns what it has written to standard error so far."""
        return self._error_file.read_bytes().decode(errors="backslashreplace")

    def row(self, within=PATIENCE):
        """Returns the next row of standard output, without its LF if the output ends before; fails if none comes."""
        row, until = b"", time.monotonic() + within
        while not row.endswith(b"\n"):
            left = until - time.monotonic()
            assert left > 0 and select.select([self.process.stdout], [], [], left)[0], f"no row has come, but {row}"
            octet = os.read(self.process.stdout.fileno(), 1)
            if not octet:
                break
            row += octet
        return row

    def wait_until_ready(self):
        """Waits until it is ready, and reads its ports."""
        row = self.row()
        assert row == b"ready\n", f"the server is not ready, but wrote {row}: {self.errors()}"
        if self._names_ports:
            for text in (self.folder / "ports").read_text(encoding="ascii").splitlines():
                _, number, _, listen, _, operator = text.split(" ")
                self.ports[int(number)] = Ports(int(listen), int(operator))
        return self

    def master(self, address, line=1):
        """Returns a master of the package that has waited for its acceptance; it waits long for replies."""
        master = Master(self.ports[line].listen, address)
        master.timeout = PATIENCE
        return master

    def operator(self, line=1):
        """Returns an operator of the package."""
        return Operator(self.ports[line].operator)

    def end_input(self):
        """Ends its standard input. A second call does nothing; `wait` does it too."""
        if self.process.stdin is not None:
            self.process.stdin.close()
            self.process.stdin = None

    def send_signal(self, number):
        self.process.send_signal(number)

    def wait(self, within=PATIENCE) -> Done:
        """Waits until it ends, and returns its status, what it wrote that was not read yet, and its errors."""
        try:
            output, _ = self.process.communicate(timeout=within)
        except subprocess.TimeoutExpired:
            raise AssertionError(f"the server doesn't end within {within} seconds") from None
        return Done(self.process.returncode, output.decode(errors="backslashreplace"), self.errors())

    def kill(self):
        """Ends it as `kill -9` does. A second call does nothing."""
        self.process.kill()
        self.process.wait()
        for stream in (self.process.stdin, self.process.stdout):
            if stream is not None:
                stream.close()
