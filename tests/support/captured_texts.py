"""The stored audit texts that tests capture, and a reader of tshark."""
import shutil
import subprocess
from pathlib import Path
from typing import NamedTuple

from support.processes import PATIENCE

TESTS = Path(__file__).resolve().parent.parent
EXAMPLES = TESTS.parent / "examples"
# How tshark 4.2 writes truths, and tshark 4.0.
TRUTHS = {"True": "1", "False": "0"}


class Text(NamedTuple):
    """A stored audit text with its rack file."""

    rack: Path
    audit: Path

    @property
    def name(self):
        return f"{self.audit.parent.name}/{self.audit.stem}"


# A day of a line has all kinds of telegrams.
DAY = Text(EXAMPLES / "day-of-a-line-rack.toml", EXAMPLES / "day-of-a-line.audit")


def stored_texts():
    """Returns the stored audit texts, also of the examples, but for those whose rack is refused: their stored output is empty."""
    rack = EXAMPLES / "audit-rack.toml"
    texts = [DAY, Text(rack, EXAMPLES / "audit.txt"), Text(rack, EXAMPLES / "audit-changed.txt")]
    for audit in sorted(TESTS.glob("*/*/*.audit")):
        output = audit.with_suffix(".out")
        if output.exists() and output.stat().st_size:
            texts.append(Text(audit.parent / "rack.toml", audit))
    return texts


def explained_texts():
    """Returns the stored audit texts of tests/explain, and the day of a line."""
    return [text for text in stored_texts() if text is DAY or text.audit.parent.parent.name == "explain"]


def find_tshark():
    """Returns the path of tshark; None if it is missing."""
    return shutil.which("tshark")


def read_by_tshark(tshark, capture, fields, *options):
    """Returns the fields that tshark reads of each packet of a capture, and its status."""
    words = [tshark, "-r", str(capture), "-T", "fields", "-E", "occurrence=a", "-E", "separator=/t", *options]
    for field in fields:
        words += ["-e", field]
    done = subprocess.run(words, capture_output=True, text=True, timeout=PATIENCE, check=False)
    rows = [dict(zip(fields, row.split("\t"))) for row in done.stdout.split("\n")[:-1]]
    for row in rows:
        if "fdl.fcs_good" in row:
            row["fdl.fcs_good"] = TRUTHS.get(row["fdl.fcs_good"], row["fdl.fcs_good"])
    return rows, done.returncode


def tree_of_tshark(tshark, capture, dissector):
    """Returns the rows of the tree of `fdl` of all packets of a capture, without the blanks in front."""
    words = [tshark, "-r", str(capture), "-X", f"lua_script:{dissector}", "-O", "fdl"]
    done = subprocess.run(words, capture_output=True, text=True, timeout=PATIENCE, check=True)
    return [row.strip() for row in done.stdout.split("\n")]
