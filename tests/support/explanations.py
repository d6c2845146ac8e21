"""The stored audit texts of `tests/explain` and the day of a line of the examples, with their explanations."""
import os
import re
from itertools import zip_longest
from pathlib import Path
from typing import NamedTuple

import pytest

TOP = Path(__file__).resolve().parent.parent.parent
STORED = TOP / "tests" / "explain"
DAY = TOP / "examples" / "day-of-a-line"
# A verdict as a line of JSON.
JSON_VERDICT = re.compile(r'\{"version":2,"kind":"verdict","verdict":"([a-z ]+)","(?:entries|row)":([0-9]+)\}')
# The first row of a block has the place in one of these columns; all other rows of it have spaces there.
HEAD_COLUMNS = 7


class Case(NamedTuple):
    """A stored explanation of an audit text with options. `base` is the path of its files without suffix."""

    base: Path
    audit: Path

    @property
    def rack(self):
        return self.base.parent / "rack.toml"

    @property
    def expected(self):
        return read(self.base.with_name(f"{self.base.name}.out"))

    @property
    def options(self):
        return read_or_empty(self.base.with_name(f"{self.base.name}.options")).split()

    @property
    def errors(self):
        """What is on standard error: FILE stands for the path of the audit text."""
        return read_or_empty(self.base.with_name(f"{self.base.name}.err")).replace(" of FILE: ", f" of {self.audit}: ")


def read(path):
    return path.read_bytes().decode()


def read_or_empty(path):
    return read(path) if path.exists() else ""


def audit_of(base):
    """Returns the audit text of the case with this path: its own, or that of the text that it goes with."""
    own = base.with_name(f"{base.name}.audit")
    return own if own.exists() else base.with_name(f"{base.name.rpartition('-')[0]}.audit")


def name_of(path):
    """Returns the name of a stored text or case, such as `stories/busy`."""
    return f"{path.parent.name}/{path.with_suffix('').name}"


def stored_audits():
    """Returns the paths of all stored audit texts."""
    return sorted(STORED.glob("*/*.audit"))


def stored_cases():
    """Returns all stored cases."""
    bases = [path.with_suffix("") for path in sorted(STORED.glob("*/*.out"))]
    return [Case(base, audit_of(base)) for base in bases]


def cases_of(audit):
    """Returns the cases of a stored audit text."""
    bases = [path.with_suffix("") for path in sorted(audit.parent.glob(f"{audit.stem}*.out"))]
    return [Case(base, audit) for base in bases if audit_of(base) == audit]


def each_text(test):
    """Parametrizes a test with each program to try, `by`, and each stored audit text, `audit`.

    The program that the other compiler made of the same sources is tried too if it is there.
    """
    right = os.environ["RACKD"]
    programs = [(right, "")] + [(other, "-by-rattle") for other in [f"{right}.by-rattle"] if os.path.exists(other)]
    rows = [pytest.param(program, audit, id=name_of(audit) + suffix) for program, suffix in programs for audit in stored_audits()]
    return pytest.mark.parametrize("by, audit", rows)(test)


def whole_explanation(audit):
    """Returns the stored explanation of an audit text without options."""
    return read(audit.with_suffix(".out"))


def rows_of(text):
    """Returns the rows of a text, each with its LF. Only an LF ends a row."""
    return [row + "\n" for row in text.split("\n")[:-1]] + [row for row in text.split("\n")[-1:] if row]


def verdict_of(explained):
    """Returns the last row of an explanation as `check` writes it, without its LF; also of one in JSON."""
    last = rows_of(explained)[-1].rstrip("\n") if explained else ""
    found = JSON_VERDICT.fullmatch(last)
    return f"{found[1]} {found[2]}" if found else last


def status_of(verdict):
    """Returns the exit status that goes with a verdict; 2 goes with none."""
    if re.fullmatch(r"legal [0-9]+", verdict):
        return 0
    return 1 if re.fullmatch(r"(bad line|not the policy) [0-9]+", verdict) else 2


def entries_of(explained):
    """Returns what an explanation has before its summary."""
    rows = rows_of(explained)
    return "".join(rows[:rows.index("holds\n")]) if "holds\n" in rows else ""


def is_head(row):
    """Returns whether a row of an explanation is the first one of a block."""
    return row[:HEAD_COLUMNS].strip() != ""


def heads_of(entries):
    """Returns the first row of each block."""
    return [row for row in rows_of(entries) if is_head(row)]


def first_blocks(entries, count):
    """Returns the blocks of the first entries, or all if there are fewer."""
    rows = rows_of(entries)
    heads = [number for number, row in enumerate(rows) if is_head(row)] + [len(rows)]
    return "".join(rows[:heads[min(count, len(heads) - 1)]])


def day():
    """Returns the rack, the rows, and the explained entries of the day of a line."""
    return (DAY.with_name("day-of-a-line-rack.toml"), rows_of(read(DAY.with_suffix(".audit"))),
            entries_of(read(DAY.with_suffix(".explained"))))


def differences(*compared):
    """Returns the first row that differs of each name, wanted and written text in which these are not equal."""
    found = []
    for name, wanted, written in compared:
        pairs = enumerate(zip_longest(rows_of(wanted), rows_of(written)), 1)
        found += [f"{name}: row {number}\n  wanted:  {one!r}\n  written: {other!r}" for number, (one, other) in pairs
                  if one != other][:1]
    return found
