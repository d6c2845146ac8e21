"""Runs of `python -m rackd suite`, with scenarios and masters that a test writes."""
import re
import sys

from support.package_runs import run_python

# Seconds that a run of the suite may take: it starts five programs for each scenario.
LONG = 240
# The beginning of a scenario with slave 5.
HEAD = "from rackd.suite import Bus, Slave\nSLAVES = [Slave(5)]\n"
# A scenario in which the master exchanges data with slave 5.
EXCHANGES = HEAD + "def run(bus):\n    bus.start()\n    bus.exchanges(5)\n"
# The beginning of a master, and an end that brings slave 5 up and exchanges data with it.
MASTER = """
import json, os, sys, time
import rackd
slave = json.loads(os.environ["RACKD_SLAVES"])[0]
cfg = bytes.fromhex(slave["cfg"])
master = rackd.Master(int(os.environ["RACKD_PORT"]), int(os.environ["RACKD_ADDRESS"]))
master.timeout = 60
"""
GOES_ON = """
master.bring_up(5, slave["ident"], cfg)
while True:
    master.data_exchange(5, bytes(2))
    time.sleep(0.005)
"""
PASSED = "passed  one\n1 passed, 0 failed\n"


class SuiteFolder:
    """A folder with a folder of scenarios and a master, in which the suite is run."""

    def __init__(self, folder):
        self.folder = folder

    def scenario(self, name, text):
        """Writes a scenario."""
        path = self.folder / "scenarios" / f"{name}.py"
        path.parent.mkdir(exist_ok=True)
        path.write_text(text, encoding="utf-8")

    def master(self, text):
        """Writes the master, and returns the words that run it."""
        path = self.folder / "master.py"
        path.write_text(text, encoding="utf-8")
        return [sys.executable, str(path)]

    def run(self, *words, **variables):
        """Runs the suite with these words. The folder is that of its temporary files too."""
        return run_python(self.folder, "-m", "rackd", "suite", *words, within=LONG, **variables)

    def own(self, *words, connect=LONG, **variables):
        """Runs the scenarios of the folder. The master has this number of seconds to connect."""
        return self.run("--folder", "scenarios", "--connect", connect, *words, **variables)


def assert_cannot_run(done, cause):
    """Checks that a suite ended with status 2, and with a cause, a pattern, on standard error."""
    assert done.status == 2, done
    assert re.search(cause, done.errors), done.errors
    assert "Traceback" not in done.errors


def assert_failed(done, *reasons):
    """Checks that the only scenario of a suite failed, for these reasons: each is a pattern of one row."""
    assert (done.status, done.errors) == (1, ""), done
    *rows, last = done.output.splitlines()
    assert last == "0 passed, 1 failed"
    begin = re.match(r"failed  \S+  ", rows[0])
    assert begin, done.output
    assert [row[:begin.end()].strip() for row in rows[1:]] == [""] * (len(rows) - 1)
    found = [row[begin.end():] for row in rows]
    assert len(found) == len(reasons) and all(map(re.fullmatch, reasons, found)), found
