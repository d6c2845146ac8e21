"""A cable with faults between masters and a line: the program `rackd cable` as a child process."""
from __future__ import annotations

import fcntl
import os
import select
import subprocess
import tempfile
import threading
import time
from dataclasses import dataclass
from pathlib import Path
from typing import List, Optional, Tuple

from .faults import CABLE_REFUSALS, NoReply, RackFault, Refused, SessionEnded, end_of
from .temporary import descriptors_of

# Seconds that a cable may take to be ready or to answer a line, and to be seen as ended once a connection has ended.
ANSWER_TIME, NOTICE_TIME = 10.0, 0.5
# Runs a program once a line of standard input has come.
WAIT_AND_RUN = ("/bin/sh", "-c", 'read -r _ && exec "$@"', "sh")
# The line that changes nothing after each of these lines.
MARKS = {"on 126": "on 126", "off 126": "off 126", "clear": "on 126"}


@dataclass(frozen=True)
class Cable:
    """What a cable does to telegrams by chance (docs/reference/cable.md).

    `lose`, `spoil` and `cut` are percentages with at most four decimals, `late` is one and milliseconds: at most one
    of these faults for a telegram. With `requests` or `replies` only those meet them. The same `seed` and the same
    telegrams of a master give the same faults. `delay` is the milliseconds that each reply takes longer. `resync` is
    after how many milliseconds octets that are no whole telegram are dropped. `drop_tokens` drops the tokens that a
    master sends to itself.
    """

    lose: float = 0
    spoil: float = 0
    cut: float = 0
    late: Optional[Tuple[float, int]] = None
    delay: int = 0
    requests: bool = False
    replies: bool = False
    seed: int = 0
    resync: Optional[int] = None
    drop_tokens: bool = False

    def words(self) -> List[str]:
        """Returns the options of `rackd cable`."""
        words: List[str] = []
        for name, value in vars(self).items():
            if value is None or value is False:
                continue
            option = "--" + name.replace("_", "-")
            if isinstance(value, tuple):
                words += [option, *map(str, value)]
            else:
                words.append(option if value is True else f"{option}={value}")
        return words


class RunningCable:
    """A cable that runs until `close` or the end of its rack. It ends with this process, however that ends.

    Masters connect to its TCP port `listen` at 127.0.0.1. `options` is what it does by chance, and `pid` its process.
    """

    def __init__(self, program: str, port: int, options: Cable, folder: Path) -> None:
        """Starts `rackd cable` at the port `listen` of a line and waits until it is ready.

        Its files are in a new folder in `folder`. Raises RackFault if it does not get ready.
        """
        self.options = options
        self._folder = Path(tempfile.mkdtemp(prefix="cable-", dir=folder))
        self._lock = threading.Lock()
        self._buffer = b""
        self._closed = False
        self._fault: Optional[RackFault] = None
        # the lines that wait for replies, and a line that changes nothing: once it is done, all before it are read
        self._waiting: List[str] = []
        self._mark = "on 126"
        words = [program, "cable", str(port), "--listen", "0", "--ports", str(self._folder / "ports"), "--log"]
        self._start([*words, *options.words()])
        try:
            if not self._row(time.monotonic() + ANSWER_TIME):
                raise RackFault(f"the cable was not ready after {ANSWER_TIME:g} seconds", None, self._rows())
            self.listen = int((self._folder / "ports").read_text().split(" ")[-1])
        except BaseException:
            self.close()
            raise

    @property
    def pid(self) -> int:
        """The process id of the program."""
        return self._process.pid

    # ---- lines

    def off(self, slave: int) -> None:
        """Takes a slave off the bus: requests to it and its replies are lost."""
        self._order(f"off {slave}")

    def on(self, slave: int) -> None:
        """Puts a slave on the bus again."""
        self._order(f"on {slave}")

    def lose(self, slave: int, replies: int = 1) -> None:
        """Loses the next replies of a slave."""
        self._order(f"lose {slave} {replies}", waits=True)

    def spoil(self, slave: int, replies: int = 1) -> None:
        """Changes one octet of each of the next replies of a slave."""
        self._order(f"spoil {slave} {replies}", waits=True)

    def cut(self, slave: int, replies: int = 1) -> None:
        """Cuts each of the next replies of a slave."""
        self._order(f"cut {slave} {replies}", waits=True)

    def late(self, slave: int, replies: int, milliseconds: int) -> None:
        """Delays each of the next replies of a slave."""
        self._order(f"late {slave} {replies} {milliseconds}", waits=True)

    def clear(self) -> None:
        """Puts all slaves on the bus, and drops what waits for replies."""
        self._order("clear")

    def wait_done(self, seconds: float = 5.0) -> None:
        """Waits until all replies have come that `lose`, `spoil`, `cut` and `late` wait for. Raises NoReply if not."""
        until = time.monotonic() + seconds
        with self._lock:
            while self._waiting:
                if not self._answer(until):
                    raise NoReply(f"the cable: no reply for {', '.join(self._waiting)}")

    def log(self) -> List[str]:
        """Returns a row for each fault so far, with the octets before and after it (docs/reference/cable.md)."""
        if not self._closed:
            self._order(self._mark)
        return self._rows(faults=True)

    # ---- the end

    def close(self) -> None:
        """Ends the cable and its connections. A second call does nothing."""
        if not self._closed:
            self.fault(0)
            self._closed = True
            self._process.kill()
            self._process.communicate()
            self._life.close()

    def fault(self, seconds: float = NOTICE_TIME) -> Optional[RackFault]:
        """Returns the fault of a cable that had ended before it was closed, None if it runs or was closed."""
        if not self._closed:
            try:
                status = self._process.wait(seconds)
                self._fault = RackFault(f"the cable {end_of(status)}", status, self._rows())
            except subprocess.TimeoutExpired:
                pass
        return self._fault

    def leave_to_parent(self) -> None:
        """Closes the pipes to the program in a child of this process, which would keep the cable running."""
        self._closed = True
        self._life.close()
        assert self._process.stdin is not None
        self._process.stdin.close()

    # ---- the program

    def _start(self, words: List[str]) -> None:
        end, life = os.pipe()
        self._life = open(life, "wb", buffering=0)
        try:
            with open(self._folder / "errors", "wb") as errors:
                self._process = subprocess.Popen([*WAIT_AND_RUN, *words], stdin=subprocess.PIPE, stdout=subprocess.PIPE,
                                                 stderr=errors, bufsize=0, start_new_session=True,
                                                 pass_fds=[end, *descriptors_of(self._folder)])
            # the system ends it by SIGIO once nobody has the other end of this pipe, also if this process is killed
            fcntl.fcntl(end, fcntl.F_SETOWN, self._process.pid)
            fcntl.fcntl(end, fcntl.F_SETFL, os.O_ASYNC)
        finally:
            os.close(end)
        self._send("")

    def _send(self, lines: str) -> None:
        assert self._process.stdin is not None
        try:
            self._process.stdin.write(lines.encode() + b"\n")
        except (BrokenPipeError, ValueError):
            # it has ended or was closed, which the reading of the answer reports
            pass

    def _order(self, line: str, waits: bool = False) -> None:
        """Sends a line, and returns once the program has read it. Raises its refusal."""
        with self._lock:
            self._mark = MARKS.get(line, self._mark)
            if waits:
                self._waiting.append(line)
            self._send(line if line == self._mark else f"{line}\n{self._mark}")
            refusal = row = ""
            until = time.monotonic() + ANSWER_TIME
            while row != f"done {self._mark}":
                row = self._answer(until)
                if not row:
                    # a later answer would be taken for that of the next line
                    self.close()
                    raise RackFault(f"the cable did not answer {line!r} within {ANSWER_TIME:g} seconds")
                if row.startswith("refused "):
                    refusal = row
            if line == "clear":
                self._waiting.clear()
            if refusal:
                if waits:
                    self._waiting.remove(line)
                raise CABLE_REFUSALS.get(refusal[8:], Refused)(f"{line}: {refusal}")

    def _answer(self, until: float) -> str:
        """Returns the next row, as `_row` does. A line that waits is done by its row."""
        row = self._row(until)
        line = row.removeprefix("done ")
        if line in self._waiting:
            self._waiting.remove(line)
        return row

    def _row(self, until: float) -> str:
        """Returns the next row of standard output, or nothing if none has come at that moment."""
        if self._closed:
            raise SessionEnded("the cable was closed")
        assert self._process.stdout is not None
        output = self._process.stdout.fileno()
        waiting = select.poll()
        waiting.register(output, select.POLLIN)
        while b"\n" not in self._buffer:
            if not waiting.poll(max(0.0, until - time.monotonic()) * 1000):
                return ""
            more = os.read(output, 4096)
            if not more:
                raise self.fault() or SessionEnded("the cable was closed")
            self._buffer += more
        row, _, self._buffer = self._buffer.partition(b"\n")
        return row.decode()

    def _rows(self, faults: bool = False) -> List[str]:
        """Returns the rows of standard error that are of the faults, or those that are not."""
        rows = (self._folder / "errors").read_text(errors="replace").splitlines()
        return [row for row in rows if row.startswith("master ") == faults]
