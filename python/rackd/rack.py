"""A rack: the program `rackd serve` as a child process, and its lines."""
from __future__ import annotations

import itertools
import os
import re
import select
import subprocess
import tempfile
import time
import weakref
from pathlib import Path
from types import TracebackType
from typing import Dict, List, Optional, Sequence, Tuple, Type, Union

from .cable import Cable, RunningCable
from .faults import NotLegal, RackError, RackFault, end_of
from .journal import Journal
from .master import Master
from .operator import Operator
from .port import Port
from .program import find_program, rows_of, run
from .reasons import Reason
from .temporary import GuardedFolder, descriptors_of
from .times import times_beside

# Seconds that a rack may take to be ready, to end, and to be seen as ended once a connection has ended.
READY_TIME, END_TIME, NOTICE_TIME = 10.0, 10.0, 0.5

# A rack file to begin with: one line, masters 1 to 3, and slaves 5, 6 and 7 with two octets of outputs and of inputs.
# Those of 6 count at each `step`, those of 7 mirror its outputs. The system chooses the ports.
SAMPLE = """\
workers = 8

[[line]]
number = 1
capacity = 65536
masters = [1, 2, 3]
listen = 0
operator = 0
""" + "".join(f"""
[[line.slave]]
address = {address}
ident = 0x80A1
cfg = "2111"
device = "{device}"
""" for address, device in ((5, "still"), (6, "counter"), (7, "mirror")))


class Line:
    """A line of a rack. `listen` and `operator_port` are its TCP ports at 127.0.0.1, `cables` those of its masters."""

    def __init__(self, rack: Rack, number: int, listen: int, operator_port: int) -> None:
        self.number, self.listen, self.operator_port = number, listen, operator_port
        self.cables: List[RunningCable] = []
        self._rack = rack
        self._operator: Optional[Operator] = None
        self._masters: Dict[int, Master] = {}
        self._ports: List[Port] = []

    def operator(self) -> Operator:
        """Returns the operator of this line, the same one each time until it is closed."""
        if self._operator is None or not self._operator.is_open:
            self._operator = Operator(self.operator_port, self._rack.fault)
        return self._operator

    def master(self, address: int, cable: Optional[Cable] = None) -> Master:
        """Returns the master with this address, the same one until it is closed.

        With `cable` it is connected through a cable of its own. Raises RackError if it is open already.
        """
        master = self._masters.get(address)
        if master is None or not master.is_open:
            master = self._masters[address] = self._connect(address, cable)
        elif cable is not None:
            raise RackError(f"master {address} is open already, close it before it gets a cable")
        return master

    def _connect(self, address: int, options: Optional[Cable]) -> Master:
        if options is None:
            return Master(self.listen, address, self._rack.fault)
        cable = self.cable(options)
        return Master(cable.listen, address, lambda: cable.fault() or self._rack.fault(), cable)

    def cable(self, options: Cable) -> RunningCable:
        """Starts a cable to this line, for masters that connect to its port `listen`. It ends with the rack."""
        cable = RunningCable(self._rack.program, self.listen, options, self._rack.folder)
        self.cables.append(cable)
        return cable

    def port(self, master: int) -> Port:
        """Opens a port for a stack of your own that is the master with this address."""
        port = Port(self.listen, master, self._rack.fault)
        self._ports.append(port)
        return port

    def journal(self) -> Journal:
        """Returns the journal of this line as it is: with each event whose answer a client has got.

        If the rack deletes old parts of it (`--keep`), it begins with the oldest entry that is there. The times of its last
        entries may be missing, since the rack writes them every 100 ms.
        """
        files, parts = self._parts()
        # a later part whose head may not be whole yet
        if len(parts) > 1 and not re.search(rb"^[0-9]", parts[-1], re.MULTILINE):
            parts.pop()
        times = times_beside(self.number, files)
        return Journal(self._rack.program, self._rack.text, b"".join(parts), times)

    def why(self, place: int) -> Reason:
        """Returns why the entry at a place of the journal has its outcome. Raises RackError if there is no such entry."""
        return self.journal().why(place)

    def _parts(self) -> Tuple[List[Path], List[bytes]]:
        """Returns the files of the journal, and what each of them contains."""
        while True:
            files = self.files()
            try:
                return files, [path.read_bytes() for path in files]
            except FileNotFoundError:
                # the rack has deleted an old part meanwhile
                continue

    def files(self) -> List[Path]:
        """Returns the files of the journal: one, or the parts of an endless one in their order."""
        files = self._rack.audit.glob(f"line-{self.number}-1.*audit")
        return sorted(files, key=lambda path: (len(path.name), path.name))

    def close(self) -> None:
        """Ends all connections and cables that were made by this object."""
        for client in [self._operator, *self._masters.values(), *self._ports, *self.cables]:
            if client is not None:
                client.close()


class Rack:
    """A rack that runs until `close`, also as a context manager. It ends with this process, however that ends.

    `program` is the path of the program, `pid` its process, and `status` its exit status after `close`. `folder` has
    the files of the rack, `audit` those of the journals; `text` is that of the rack file.
    """

    def __init__(self, toml: Union[str, "os.PathLike[str]"], *, program: Optional[str] = None,
                 tick: Optional[int] = None, step: Optional[int] = None, options: Sequence[str] = (),
                 folder: Union[str, "os.PathLike[str]", None] = None) -> None:
        """Starts `rackd serve` and waits until it is ready. Raises RackFault if it does not get ready.

        `toml` is the text of a rack file if it has a line feed, and a path if not. `program` is the program to start;
        without it, `find_program` chooses. `tick` and `step` are milliseconds of the clock, `options` further words of
        `serve`. The files are in a new folder, which `close` removes; if this process is killed, it is removed once the
        rack has ended. With `folder` it is made there, and stays.
        """
        self.program = find_program(program)
        self.status: Optional[int] = None
        self._closed = False
        self._guarded: Optional[GuardedFolder] = None
        if folder is not None:
            os.makedirs(folder, exist_ok=True)
            self.folder = Path(tempfile.mkdtemp(prefix="rackd-", dir=folder)).absolute()
        else:
            self._guarded = GuardedFolder("rackd-")
            self.folder = self._guarded.path
        self.audit = self.folder / "audit"
        self._path = self._rack_file(toml)
        words = [self.program, "serve", str(self._path), "--ports", str(self.folder / "ports"), "--until-input-ends",
                 "--audit", str(self.audit), *options]
        for name, milliseconds in (("--tick", tick), ("--step", step)):
            if milliseconds is not None:
                words += [name, str(milliseconds)]
        if "--log" not in options:
            words.append("--log")
        self._process = self._start(words)
        try:
            self._wait_until_ready()
            self._lines = self._read_ports()
        except BaseException:
            self._kill()
            self._remove()
            raise
        self.text = self._path.read_bytes()
        _open[next(_number)] = self

    def __enter__(self) -> Rack:
        return self

    def __exit__(self, kind: Optional[Type[BaseException]], error: Optional[BaseException],
                 trace: Optional[TracebackType]) -> None:
        try:
            self.close()
        except RackFault:
            # the test fails by a fault of a rack already
            if not isinstance(error, RackFault):
                raise

    @property
    def lines(self) -> List[Line]:
        """The lines, in ascending order of their numbers."""
        return list(self._lines.values())

    @property
    def pid(self) -> int:
        """The process id of the program."""
        return self._process.pid

    def line(self, number: int) -> Line:
        """Returns the line with this number. Raises RackError if the rack has no such line."""
        if number not in self._lines:
            raise RackError(f"the rack has no line {number}; it has {', '.join(map(str, self._lines))}")
        return self._lines[number]

    def close(self) -> None:
        """Ends the rack, and checks the journal of each line. A second call does nothing.

        Raises RackFault if the rack or a cable of it had ended before, or the rack did not end well, NotLegal if a
        journal is not legal. The files of a journal that is not legal stay.
        """
        if self._closed:
            return
        self._closed = True
        for line in self.lines:
            line.close()
        for fault in (self._end(), *(cable.fault() for line in self.lines for cable in line.cables)):
            if fault is not None:
                self._remove()
                raise fault
        try:
            for line in self.lines:
                self._check(line)
        except NotLegal:
            if self._guarded:
                self._guarded.keep()
            raise
        finally:
            self._remove()

    def fault(self) -> Optional[RackFault]:
        """Returns the fault of a rack that has ended before it was closed, None if it runs or is closed."""
        if self._closed:
            return None
        try:
            status = self._process.wait(NOTICE_TIME)
        except subprocess.TimeoutExpired:
            return None
        return RackFault(f"the rack {end_of(status)} before it was closed", status, self._rows())

    def log(self) -> List[str]:
        """Returns the log so far: sessions, octets that are no telegram, warnings (docs/reference/log.md)."""
        return rows_of((self.folder / "errors").read_bytes(), log=True)

    # ---- the program

    def _rack_file(self, toml: Union[str, "os.PathLike[str]"]) -> Path:
        if not isinstance(toml, str) or "\n" not in toml:
            return Path(toml).absolute()
        path = self.folder / "rack.toml"
        path.write_text(toml, encoding="utf-8")
        return path

    def _start(self, words: List[str]) -> "subprocess.Popen[bytes]":
        try:
            with open(self.folder / "errors", "wb") as errors:
                # in a session of its own, so that Ctrl-C ends the tests and not the racks under them
                return subprocess.Popen(words, stdin=subprocess.PIPE, stdout=subprocess.PIPE, stderr=errors, bufsize=0,
                                        start_new_session=True, pass_fds=descriptors_of(self.folder))
        except OSError as error:
            self._remove()
            raise RackFault(f"cannot start {self.program}: {error.strerror}") from None

    def _wait_until_ready(self) -> None:
        assert self._process.stdout is not None
        output = self._process.stdout.fileno()
        waiting = select.poll()
        waiting.register(output, select.POLLIN)
        written, until = b"", time.monotonic() + READY_TIME
        while b"ready" not in written.split(b"\n")[:-1]:
            if not waiting.poll(max(0.0, until - time.monotonic()) * 1000):
                raise RackFault(f"the rack was not ready after {READY_TIME:g} seconds", None, self._rows())
            more = os.read(output, 4096)
            if not more:
                status = self._process.wait()
                raise RackFault(f"the rack {end_of(status)} before it was ready", status, self._rows())
            written += more

    def _read_ports(self) -> Dict[int, Line]:
        lines = {}
        for row in (self.folder / "ports").read_text().splitlines():
            _, number, _, listen, _, operator = row.split(" ")
            lines[int(number)] = Line(self, int(number), int(listen), int(operator))
        return lines

    def _end(self) -> Optional[RackFault]:
        """Ends the standard input of the program, and waits for its end."""
        had_ended = self._process.poll() is not None
        try:
            # this closes standard input; the audit texts on standard output are in files too
            self._process.communicate(timeout=END_TIME)
        except subprocess.TimeoutExpired:
            self._kill()
            return RackFault(f"the rack did not end within {END_TIME:g} seconds", None, self._rows())
        self.status = self._process.returncode
        if self.status:
            when = "before it was closed" if had_ended else "when it was closed"
            return RackFault(f"the rack {end_of(self.status)} {when}", self.status, self._rows())
        return None

    def _kill(self) -> None:
        self._process.kill()
        self._process.wait()
        for stream in (self._process.stdin, self._process.stdout):
            if stream is not None:
                stream.close()

    def _check(self, line: Line) -> None:
        done = run(self.program, ["check", str(self._path), *map(str, line.files())])
        verdict = done.stdout.decode(errors="replace").strip()
        if done.returncode or not verdict.startswith("legal "):
            raise NotLegal(line.number, verdict, rows_of(done.stderr), str(self.audit))

    def _rows(self) -> Sequence[str]:
        return rows_of((self.folder / "errors").read_bytes())

    def _remove(self) -> None:
        if self._guarded:
            self._guarded.remove()

    def _leave_to_parent(self) -> None:
        """Closes the pipes to the rack and its cables in a child of this process, which would keep them running."""
        self._closed = True
        if self._process.stdin is not None:
            self._process.stdin.close()
        for line in self.lines:
            for cable in line.cables:
                cable.leave_to_parent()


# The racks of this process that were started and not collected, oldest first.
_open: "weakref.WeakValueDictionary[int, Rack]" = weakref.WeakValueDictionary()
_number = itertools.count()


def open_racks() -> List[Rack]:
    """Returns the racks of this process that are not closed, oldest first."""
    return [rack for _, rack in sorted(_open.items()) if not rack._closed]


def _leave_all_to_parent() -> None:
    for rack in open_racks():
        rack._leave_to_parent()


os.register_at_fork(after_in_child=_leave_all_to_parent)
