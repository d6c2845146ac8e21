"""What tests about the time of lines need: when slaves were released by the log, masters that poll, and the ticks of a text."""
import contextlib
import re
import tempfile
import threading
import time
from concurrent.futures import ThreadPoolExecutor
from pathlib import Path

from rackd.faults import SlaveRefused

from support.clients import wait_for
from support.racks import line, rack, slave

# Seconds of a unit of time, and of the last digit of the time of a row of the log.
UNIT, DIGIT = 0.010, 0.001
DAY = 86400
IDENT, CFG = 0x80A1, b"\x21\x11"


class ReleaseLog:
    """The log of a server that runs with `--log requests`: when slaves were released, and which time was discarded.

    `released` has moments in seconds of the day (UTC) by line and slave; `discarded` has milliseconds. Each row is read once.
    """

    RELEASED = re.compile(r"(\d\d):(\d\d):(\d\d)\.(\d\d\d) line (\d+): tick \d+ -> released (.+)")
    DISCARDED = re.compile(r"\[WARN  rackd\] [0-9:.]{12} (\d+) ms were discarded: the rack was delayed$")

    def __init__(self, server):
        self._file, self._begun, self._lock = open(server.folder / "errors", "rb"), b"", threading.Lock()
        self._released, self._discarded = {}, []

    def _read(self):
        *rows, self._begun = (self._begun + self._file.read()).split(b"\n")
        for row in rows:
            text = row.decode(errors="replace")
            if found := self.RELEASED.search(text):
                hours, minutes, seconds, milliseconds, number = map(int, found.groups()[:5])
                moment = hours * 3600 + minutes * 60 + seconds + milliseconds / 1000
                for address in found[6].split():
                    self._released.setdefault((number, int(address)), []).append(moment)
            elif found := self.DISCARDED.search(text):
                self._discarded.append(int(found[1]))

    def releases(self, address, number=1):
        """Returns when a slave of a line was released so far."""
        with self._lock:
            self._read()
            return list(self._released.get((number, address), []))

    def discarded(self):
        """Returns the milliseconds of each row about time that was discarded so far."""
        with self._lock:
            self._read()
            return list(self._discarded)

    def release(self, address, count, number=1):
        """Waits until a slave was released for this number of times, and returns when it was for the last one of them."""
        return wait_for(lambda: self.releases(address, number)[count - 1:])[0]


def since(moment, then):
    """Returns the seconds from a moment of the wall clock to a moment of the day."""
    return (then - moment % DAY + DAY / 2) % DAY - DAY / 2


class Poller:
    """A master that holds a slave.

    The rack took its last request between the moments `sent` and `came` of the wall clock.
    """

    def __init__(self, server, address, of_slave, number=1):
        self.slave, self._master = of_slave, server.master(address, number)
        self.sent = self.came = time.time()
        self._longest = 0.0

    def _ask(self, ask, *words, **keys):
        before, self.sent = self.sent, time.time()
        try:
            return ask(self.slave, *words, **keys)
        finally:
            self.came = time.time()
            self._longest = max(self._longest, self.came - before)

    def lock(self, milliseconds):
        """Sets parameters with a watchdog."""
        self._ask(self._master.set_prm, IDENT, watchdog_ms=milliseconds)
        self._longest = 0.0

    def exchanges(self, milliseconds):
        """Brings the slave into data exchange with a watchdog. If the watchdog runs out meanwhile, the slave refuses all polls."""
        self.lock(milliseconds)
        with contextlib.suppress(SlaveRefused):
            self._ask(self._master.chk_cfg, CFG)
        return self

    def longest(self):
        """Returns the most seconds without a request that the rack can have seen from when the slave was locked to this moment."""
        return max(self._longest, time.time() - self.sent)

    def is_in_time(self, milliseconds):
        """Returns whether a watchdog of the slave cannot have run out since it was locked, whatever delayed the requests."""
        return self.longest() < milliseconds / 1000 - UNIT

    def poll(self):
        """Exchanges data, and returns the inputs; None if the slave refuses."""
        try:
            return self._ask(self._master.data_exchange, b"\x00\x00")
        except SlaveRefused:
            return None

    def poll_for(self, seconds, every):
        """Polls for a number of seconds, and returns how many replies had no inputs."""
        until, refused = time.monotonic() + seconds, 0
        while time.monotonic() < until:
            refused += not self.poll()
            time.sleep(every)
        return refused

    def close(self):
        """Ends the session."""
        self._master.close()


def at_once(work, items):
    """Calls a function with each of these in a thread of its own, and returns what they return, or raises what one raises."""
    with ThreadPoolExecutor(len(items)) as threads:
        return list(threads.map(work, items))


def rack_of(masters, slaves, device="still"):
    """Returns a rack of line 1 with these masters and slaves, each of which has this device."""
    slaves = [slave(address, device=device) for address in slaves]
    return rack(line(1, *slaves, masters=list(masters)), workers=len(masters) + 2)


def new_folder(folder):
    """Makes a new folder in a folder, also if a test is tried again, and returns its path."""
    return Path(tempfile.mkdtemp(dir=folder))


def whole_rows(path):
    """Returns what a file has up to its last LF."""
    text = path.read_bytes()
    return text[:text.rfind(b"\n") + 1]


def units_before_rows(text):
    """Returns how many units of time have passed before each row of an audit text behind its header, and how many in all."""
    passed, units = 0, []
    for row in text.splitlines()[1:]:
        units.append(passed)
        if found := re.match(rb"\d+ tick (\d+) \|", row):
            passed += int(found[1])
    return units, passed
