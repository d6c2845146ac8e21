"""Tables of command lines: the words of each, what it reads and how it ends; and the texts that they share."""
import re
from typing import NamedTuple

import pytest

from support.processes import Done

# A rack of line 1 with masters 1 and 2, and slave 5.
RACK = """\
[[line]]
number = 1
capacity = 1000
masters = [1, 2]
[[line.slave]]
address = 5
ident = 0x80A1
cfg = "2111"
sync = true
freeze = true
"""
# The same line with number 2.
LINE_2 = RACK.replace("number = 1", "number = 2")

# A row of a script that asks slave 5 for its diagnosis, and its answer.
SLAVE_DIAG = "m 1 68 05 05 68 85 81 6D 3C 3E ED 16\n"
REPLY = "1: reply 680b0b688185083e3c020500ff80a1af16 Done\n"

# The same as the first entry of an audit text.
ENTRY = "1 req 1 6805056885816d3c3eed16 | WaitPrm none | reply 680b0b688185083e3c020500ff80a1af16 Done\n"
AUDIT = f"rack-audit 2 line 1\n{ENTRY}"
# The same entry with facts that the policy doesn't give, and a second entry.
FACTS = ENTRY.replace("WaitPrm", "WaitCfg")
TICK = "2 tick 1 | none | released\n"

# What is reported of input and files that are not accepted.
NO_COMMAND = "  no such command; 'rackd run --help' lists them\n"
NOT_TOML = (f"rackd: rack NotToml\n  row 1: key with no value, expected `=`\n"
            f"  row 1 of f/script: found \"{SLAVE_DIAG.rstrip()}\"\n")
TWO_PERCENT_SIGNS = ("rackd: rack NotToml\n  row 11: invalid key, expected letters, numbers, `-`, `_` or a quoted key\n"
                     "  row 11 of standard input: found \"%%\"\n")
# The last row behind a row that is not the policy.
OTHER_RACK = "  a check on another rack file than the line's own finds this too\n"


def with_ports(rack, listen, operator):
    """Returns a rack of one line with these ports."""
    return rack.replace("masters = [1, 2]", f"masters = [1, 2]\nlisten = {listen}\noperator = {operator}")


def no_file(name):
    """Returns what is reported of a file that is missing."""
    return f"rackd: cannot read {name}\n  no such file or folder\n"


def not_utf_8(name):
    """Returns what is reported of a file that is not UTF-8."""
    return f"rackd: cannot read {name}\n  it is not UTF-8 text\n"


# The row of a rack file that a cause is about.
ROW_OF_FILE = re.compile(r'^  row \d+ of [^\n]+: (found|table) "[^\n]*"\n', re.MULTILINE)


def without_row_of_file(done):
    """Returns how a run ended without the row of the rack file that it reports, which `tests/line/test_rack_rows.py` tests."""
    return Done(done.status, done.output, ROW_OF_FILE.sub("", done.errors))


# Why a text that does not end within a row is not legal.
REASON = re.compile(r"  (row \d+ of (?![^\n]* ends within )[^\n]*|[^\n]* is empty)\n(  [^\n]*\n)*")


def without_reason(errors):
    """Returns what was reported, unless it is why a text is not legal, which `tests/cli/test_audit_texts.py` tests."""
    return "" if REASON.fullmatch(errors) else errors


class Case(NamedTuple):
    """A run of the program: its words, parted by spaces, how it ends, and what it reads."""

    words: str = ""
    status: int = 0
    output: str = ""
    errors: str = ""
    input: "str | bytes" = ""

    @property
    def ended(self):
        """How the run ends."""
        return Done(self.status, self.output, self.errors)


def table(rows):
    """Parametrizes a test with the cases of a table, by their names."""
    return pytest.mark.parametrize("case", rows.values(), ids=rows.keys())
