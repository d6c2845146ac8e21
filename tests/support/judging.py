"""Audit texts for tests of `rackd judge`: scripts of what masters send, and the texts that the program leaves of them."""
import json
from typing import NamedTuple, Optional

from rackd import frames
from rackd.master import CHK_CFG, GET_CFG, GLOBAL_CONTROL, MASTER, SDN, SET_PRM, SLAVE_DIAG, STATUS

from support.rule_table import CHAPTER, rows_of_chapter

RACK = """
[[line]]
number = 1
capacity = 4000
masters = [1, 2]
[[line.slave]]
address = 5
ident = 0x80A1
cfg = "2111"
sync = true
freeze = true
[[line.slave]]
address = 6
ident = 0x0B3C
cfg = "20"
"""
# All rules of docs/reference/judge.md, in their order, and those that are warnings.
ROWS = rows_of_chapter(CHAPTER.read_text(encoding="utf-8"))
RULES = [row.name for row in ROWS]
WARNINGS = {row.name for row in ROWS if row.severity == "warning"}
IDENTS = {5: b"\x80\xa1", 6: b"\x0b\x3c"}
CONFIGURATIONS = {5: b"\x21\x11", 6: b"\x20"}
# Function codes of SRD with high priority: the first one to a slave, and those with FCV 1 and FCB 0 or 1.
FIRST, FCB_0, FCB_1 = 0x6D, 0x5D, 0x7D


# With these options nothing is untested.
NOTHING_WANTED = "--requests-at-least", "0", "--exchanges-at-least", "0"


class Request(NamedTuple):
    """A request of a script. Without a function code it is the next SRD of its master to its slave, FCB alternates."""

    slave: int
    point: Optional[int] = None
    data: bytes = b""
    fc: Optional[int] = None
    master: int = 1
    ssap: Optional[int] = MASTER


def diag(slave=5, fc=None):
    return Request(slave, SLAVE_DIAG, fc=fc)


def prm(slave=5, status=0x80, watchdog=(0, 0), min_tsdr=11, group=0, fc=None):
    """Returns a Set_Prm. It locks the slave, and `status` 0x88 switches its watchdog on, with two factors."""
    return Request(slave, SET_PRM, bytes([status, *watchdog, min_tsdr]) + IDENTS[slave] + bytes([group]), fc)


def cfg(slave=5):
    return Request(slave, CHK_CFG, CONFIGURATIONS[slave])


def get_cfg(slave=5):
    return Request(slave, GET_CFG)


def exchange(data=b"\x12\x34", slave=5, fc=None):
    return Request(slave, None, data, fc)


def status(address, fc=STATUS):
    """Returns an FDL status, which no slave at addresses other than 5 and 6 answers."""
    return Request(address, fc=fc)


def control(octet, group=0, fc=SDN):
    """Returns a Global_Control to all slaves of a group."""
    return Request(127, GLOBAL_CONTROL, bytes([octet, group]), fc)


def bring_up(slave=5, **parameters):
    """Returns the four requests that bring a slave to data exchange."""
    return [diag(slave), prm(slave, **parameters), cfg(slave), diag(slave)]


def by(master, *requests):
    """Returns the same requests by another master than 1."""
    return [request._replace(master=master) for request in requests]


def rows_of(script):
    """Returns the rows of a script, one for each step. A step is a request, or a row as it is."""
    rows, turns = [], {}
    for step in script:
        if isinstance(step, str):
            rows.append(step)
            continue
        station, fc = (step.master, step.slave), step.fc
        if fc is None:
            fc = {None: FIRST, True: FCB_0, False: FCB_1}[turns.get(station)]
        if fc in (FIRST, FCB_0, FCB_1):
            turns[station] = fc != FCB_0
        octets = frames.request(step.slave, step.master, fc, step.data, step.point, None if step.point is None else step.ssap)
        rows.append(f"m {step.master} {octets.hex(' ')}")
    return rows


class JudgedText:
    """The audit text that a script leaves, in the file `path`. It is legal until a test changes the file."""

    def __init__(self, run, folder, script):
        self._run, self._rack, self.path = run, folder / "rack.toml", folder / "audit"
        self._rack.write_text(RACK, encoding="ascii")
        steps = folder / "script"
        steps.write_text("\n".join([*rows_of(script), "journal", ""]), encoding="ascii")
        done = run("run", self._rack, steps)
        assert done.status == 0, done
        self.path.write_text(done.output[done.output.index("rack-audit "):], encoding="ascii")
        checked = run("check", self._rack, self.path)
        assert checked == (0, f"legal {len(script)}\n", "")

    def judge(self, *options):
        """Runs `rackd judge` on the text, as one that asks for no least number of requests and exchanges."""
        return self.judge_as_usual(*NOTHING_WANTED, *options)

    def judge_as_usual(self, *options):
        """Runs `rackd judge` on the text."""
        return self._run("judge", self._rack, self.path, *options)

    def rows_of_json(self, *options):
        """Returns what `rackd judge --json` writes."""
        return [json.loads(row) for row in self.judge("--json", *options).output.splitlines()]

    def findings(self, *options):
        """Returns the rule, the master and the place of each finding, and the status."""
        done = self.judge("--json", *options)
        rows = [json.loads(row) for row in done.output.splitlines()]
        assert done.errors == "" and "verdict" in rows[-1], done
        return [(row["rule"], row["master"], row["place"]) for row in rows if "place" in row], done.status
