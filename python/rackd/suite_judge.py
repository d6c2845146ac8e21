"""What is wrong in the journals of a scenario, by `rackd judge` and the log."""
from __future__ import annotations

from dataclasses import dataclass
from typing import Dict, List, Sequence

from .faults import RackFault
from .journal import Finding, findings_of
from .program import run
from .rack import Line, Rack

# The error that never counts without being named: the judge takes each reply for one that the master got in time, but
# one that was lost, or that a busy machine has made late, has to be asked for again.
RETRY = "fcb-not-alternated"


@dataclass
class BrokenRule:
    """A rule that the master broke: the first finding, and how many there are."""

    first: Finding
    count: int = 1

    def reason(self) -> str:
        """Returns what was broken in words."""
        slave = {None: "", 127: " all slaves"}.get(self.first.slave, f" slave {self.first.slave}")
        often = f" ({self.count} times)" if self.count > 1 else ""
        return f"place {self.first.place}{slave} {self.first.rule}{often}: {self.first.text}"


def judged(rack: Rack, line: Line, master: int, rules: Sequence[str] = ()) -> List[BrokenRule]:
    """Returns the rules that a master broke on a line of a rack that was closed, by their first places.

    With `rules` only these are judged. Raises RackFault if the program has no `judge`, or no such rule.
    """
    words = ["judge", str(rack.folder / "rack.toml"), *map(str, line.files()), "--master", str(master), "--json"]
    if rules:
        words += ["--rules", ",".join(rules)]
    findings, verdict = findings_of(run(rack.program, words).stdout)
    if verdict != "legal":
        raise RackFault(f"rackd judge did not find the journal of line {line.number} legal")
    broken: Dict[str, BrokenRule] = {}
    for finding in findings:
        if finding.rule in broken:
            broken[finding.rule].count += 1
        else:
            broken[finding.rule] = BrokenRule(finding)
    return list(broken.values())


def dropped(rack: Rack, master: int) -> List[str]:
    """Returns a reason if a master sent octets that are no telegram, by the log of the rack."""
    rows = [row.partition(f" master {master}: ")[2] for row in rack.log() if f" master {master}: dropped " in row]
    return [f"octets that are no telegram: {rows[0]}"] if rows else []


def counts(finding: Finding, allowed: Sequence[str], counted: Sequence[str]) -> bool:
    """Whether a finding counts: its rule is one of `counted`, or it is an error whose rule is neither RETRY nor allowed."""
    return finding.rule in counted or finding.severity == "error" and finding.rule not in (RETRY, *allowed)


def reasons(rack: Rack, master: int, allowed: Sequence[str], counted: Sequence[str]) -> List[str]:
    """Returns what a master did wrong on the lines of a rack that was closed, see `counts`."""
    texts = []
    for line in rack.lines:
        if allowed or counted:
            # a rule that there is not is wrong words of the judge
            judged(rack, line, master, [*allowed, *counted])
        texts += [broken.reason() for broken in judged(rack, line, master) if counts(broken.first, allowed, counted)]
    return texts + dropped(rack, master)
