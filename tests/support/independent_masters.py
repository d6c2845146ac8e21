"""The three masters of tests/oracle/masters, and a rack at which they are tried, with its audit text and what the judge finds."""
import atexit
import functools
import os
import shutil
import signal
import subprocess
import sys
import tempfile
from collections import Counter
from pathlib import Path
from typing import NamedTuple, Optional

import pytest

from rackd import frames
from support.clients import answer_to, wait_for
from support.processes import PATIENCE
from support.racks import line, rack, slave
from support.servers import PR_SET_PDEATHSIG, libc

FOLDER = Path(__file__).resolve().parents[1] / "oracle" / "masters"
# The source of each language, and the tool that runs or compiles it; Python is the one that runs this.
SOURCES = {"python": ("master.py", None), "perl": ("master.pl", "perl"), "c": ("master.c", "cc")}

IDENTS = {5: 0x80A1, 6: 0x80A2, 7: 0x0B3C}
# A watchdog in milliseconds that runs out only if an operator lets units of 10 ms pass, and more units than it has.
LONG_WATCHDOG, EXPIRE = 60_000, 6_500
# A slot time in milliseconds in which each reply comes, also on a busy machine.
NO_LOSS = 10_000


def text_of_rack(listen=0, ident=IDENTS[7]):
    """Returns the rack of these tests: a still slave 5, a counter 6, and slave 7, which has outputs only."""
    return rack(line(1, slave(5, sync=True, freeze=True),
                     slave(6, ident=IDENTS[6], cfg="11", freeze=True, device="counter"),
                     slave(7, ident=ident, cfg="23", sync=True, failsafe=True), masters=[1, 2], listen=listen))


def slave_words(watchdog=LONG_WATCHDOG):
    """Returns the words by which a master is configured for each slave: ADDRESS:IDENT:CFG:OUTPUTS:WATCHDOG:GROUPS."""
    return {5: f"5:80A1:2111:2:{watchdog}:01", 6: f"6:80A2:11:0:{watchdog}:02", 7: f"7:0B3C:23:4:{watchdog}:04"}


@functools.lru_cache(maxsize=None)
def compiled(source):
    """Returns the path of the program of a source in C. It is compiled once, and removed when this process ends."""
    folder = tempfile.TemporaryDirectory(prefix="masters-")
    atexit.register(folder.cleanup)
    program = Path(folder.name, source.stem)
    subprocess.run(["cc", "-O2", "-Wall", "-Werror", "-o", program, source], check=True)
    return program


def command_of(language, folder, change=None):
    """Returns the words that run the master of a language. A change is a text of it, and what replaces this text."""
    name, tool = SOURCES[language]
    if tool and shutil.which(tool) is None:
        pytest.skip(f"{tool} is not installed")
    path = FOLDER / name
    if change is not None:
        old, new = change
        text = path.read_text(encoding="utf-8")
        assert text.count(old) == 1, f"{name} has {text.count(old)} times {old!r}"
        path = folder / f"wrong-{name}"
        path.write_text(text.replace(old, new), encoding="utf-8")
    return [compiled(path)] if language == "c" else [tool or sys.executable, path]


def variables_of(port, address, slaves):
    """Returns the variables of a master under test (examples/suite/README.md), with the slaves of these words."""
    variables = {"RACKD_PORT": str(port), "RACKD_ADDRESS": str(address), "RACKD_CLEAR": "0",
                 "RACKD_SLAVE_ADDRESSES": " ".join(word.split(":")[0] for word in slaves)}
    for word in slaves:
        slave, ident, cfg, outputs, watchdog, groups = word.split(":")
        keys = {"IDENT": int(ident, 16), "CFG": cfg, "USER": "", "OUTPUTS": "5a" * int(outputs), "WATCHDOG_MS": watchdog,
                "GROUP": int(groups, 16), **dict.fromkeys(("SYNC", "FREEZE", "FAILSAFE", "MIRROR"), 0)}
        variables.update({f"RACKD_SLAVE_{slave}_{key}": str(value) for key, value in keys.items()})
    return variables


class RunningMaster:
    """A master that runs beside the test until `end`, or until it has done what its options say."""

    def __init__(self, command, port, slaves, *options, address=1, by_environment=False):
        given = {"--slot": str(NO_LOSS), "--seconds": "600"}
        slaves = list(slaves)
        words = [str(port), str(address), *slaves, *options]
        for name, value in given.items():
            if name not in options:
                words += [name, value]
        environment = None
        if by_environment:
            environment = {**os.environ, **variables_of(port, address, slaves),
                           "MASTER_OPTIONS": " ".join(words[2 + len(slaves):])}
            words = []
        self.process = subprocess.Popen([*map(str, command), *words], env=environment, stdout=subprocess.PIPE, text=True,
                                        preexec_fn=lambda: libc.prctl(PR_SET_PDEATHSIG, signal.SIGKILL))
        self.slaves, self.strays = {}, 0

    def end(self, statuses=(0,), stop=True):
        """Ends the master, or waits for its end, and returns its report: for each slave a number for each word."""
        if stop:
            self.process.send_signal(signal.SIGTERM)
        output, _ = self.process.communicate(timeout=PATIENCE)
        assert self.process.returncode in statuses, output
        for row in output.splitlines():
            words = row.split()
            if words[0] == "slave":
                self.slaves[int(words[1])] = dict(zip(words[2::2], map(int, words[3::2])))
            else:
                self.strays = int(words[3])
        return self.slaves

    def kill(self):
        self.process.kill()
        self.process.wait()
        self.process.stdout.close()


class Request(NamedTuple):
    """A request of an audit text. `point` is None for Data_Exchange; `rule` is the last word of the outcome."""

    master: int
    station: int
    point: Optional[int]
    control: int
    data: bytes
    outcome: str
    rule: str


def request_of(row):
    """Returns the request in a row of an audit text."""
    event, _, outcome = row.split(" | ")
    _, _, master, octets = event.split(" ")
    frame = frames.decode(bytes.fromhex(octets))
    return Request(int(master), frame.destination, frame.dsap, frame.fc, frame.data, outcome, outcome.split()[-1])


class WatchedRack:
    """A rack of one line that is served by a clock, with its operator and its audit text, which is in `folder`."""

    def __init__(self, serve, run, folder, **text):
        self._run = run
        self.audit = folder / "line-1-1.audit"
        self.server = serve(text_of_rack(**text), "--audit", folder, "--tick", "20", "--until-input-ends", piped=True)
        self.port = self.server.ports[1].listen
        self._operator = self.server.operator()

    def operate(self, row, answer="done"):
        """Sends a row of the operator, which has to be answered so."""
        assert answer_to(self._operator, row) == answer

    def show(self, address):
        return answer_to(self._operator, f"show {address}")

    def exchanging(self, holders):
        """Returns whether each slave exchanges data with its holder."""
        return all(self.show(address).startswith(f"show {address} DataExch {holder} ") for address, holder in holders.items())

    def expire(self):
        """Lets the watchdogs run out."""
        answer = answer_to(self._operator, f"tick {EXPIRE}")
        assert answer.startswith("released "), "no watchdog ran out"

    def wait_until_started(self, holders):
        """Waits until each slave exchanges data with its holder, and has had a Data_Exchange meanwhile."""
        wait_for(lambda: self.exchanging(holders), every=0.02)
        for address, holder in holders.items():
            self.wait_for_requests(2, master=holder, station=address, point=None, rule="Done")

    def rows(self):
        """Returns the whole rows of the audit text so far, without the first one."""
        return self.audit.read_text(encoding="ascii").rpartition("\n")[0].split("\n")[1:]

    def requests(self, behind=0, **fields):
        """Returns the requests of the audit text so far, behind this number of rows, that have these fields."""
        found = [request_of(row) for row in self.rows()[behind:] if " req " in row.split(" | ")[0]]
        return [request for request in found if all(getattr(request, name) == value for name, value in fields.items())]

    def wait_for_requests(self, more, after=None, **fields):
        """Sends a row of the operator, if there is one, and waits until this number of requests with these fields stands behind it."""
        behind = len(self.rows())
        if after is not None:
            self.operate(after)
            events = [row.split(" | ")[0].partition(" ")[2] for row in self.rows()]
            behind = events.index(after, behind) + 1
        wait_for(lambda: len(self.requests(behind, **fields)) >= more, every=0.02)

    def longest_silence(self):
        """Returns the most units of 10 ms between two requests of the audit text."""
        longest = units = 0
        for row in self.rows():
            _, word, value, *_ = row.split(" ")
            units = units + int(value) if word == "tick" else 0
            longest = max(longest, units)
        return longest

    def end(self):
        """Ends the rack, whose audit text has to be legal."""
        self._operator.close()
        self.server.end_input()
        assert self.server.wait().status == 0
        checked = self._run("check", self.server.rack, self.audit)
        assert checked.status == 0, checked.output

    def judged(self, without=()):
        """Returns the findings of `rackd judge` by all rules but these: how many of each rule, the rows, and the status.

        The outputs of these masters count, and so they are 3d 3e now and then, which look like access points. A master of
        the line that was not started is right too, but at least one Data_Exchange has to be answered.
        """
        left_out = ("--without", ",".join(without)) if without else ()
        done = self._run("judge", self.server.rack, self.audit, "--requests-at-least", "0", *left_out)
        assert done.status in (0, 1), done.errors
        rows = [row for row in done.output.splitlines() if row.lstrip().startswith("place ")]
        return Counter(row.split(":")[0].split()[-1] for row in rows), rows, done.status

    def end_clean(self, without=()):
        """Ends the rack: by all rules but these, the masters did nothing wrong."""
        self.end()
        assert self.judged(without) == ({}, [], 0)

    def end_with(self, rule):
        """Ends the rack: a master broke this rule, and no other."""
        self.end()
        findings, rows, _ = self.judged()
        assert set(findings) == {rule}, rows[:7]
