"""The table of the rules of `rackd judge` in docs/reference/judge.md, and their list in its help, made of the rows in
crates/judge_rules/src/rule_rows.rt.

As a program it writes both: `python3 tests/support/rule_table.py`.
"""
import pathlib
import re
import textwrap
from typing import List, NamedTuple

TOP = pathlib.Path(__file__).resolve().parents[2]
CHAPTER = TOP / "docs" / "reference" / "judge.md"
SOURCE = TOP / "crates" / "judge_rules" / "src" / "rule_rows.rt"
HELP = TOP / "crates" / "rackd_cli" / "src" / "judge.rt"
HEAD = ["| Rule | Severity | IEC 61158- | Reported for |", "|---|---|---|---|"]
LIST = re.compile(r"(?<=Rules \(docs/reference/judge\.md says what each one reports\):\n)(?:  .*\n)+")
TABLE = re.compile(re.escape(HEAD[0]) + r"\n(?:\|.*\n)+")


class Row(NamedTuple):
    """A rule: its name, its severity, the part and the subject of the standard, and what it says."""

    name: str
    severity: str
    subject: str
    text: str


def rows_of_chapter(document: str) -> List[Row]:
    """Returns the rows of the table in docs/reference/judge.md."""
    rows = TABLE.search(document).group().splitlines()[len(HEAD):]
    cells = [[cell.strip() for cell in row.strip("|").split("|")] for row in rows]
    return [Row(name.strip("`"), severity, f"IEC 61158-{subject}", text) for name, severity, subject, text in cells]


def rows_of_source(source: str) -> List[Row]:
    """Returns the rows of the table in the source."""
    subjects = dict(re.findall(r'Source::(\w+) => "([^"]*)"', source))
    rows = re.findall(
        r'=> RuleRow \{\s*name: "([^"]*)",\s*severity: Severity::(\w+),\s*source: Source::(\w+),\s*text:\s*"([^"]*)",\s*\}', source)
    return [Row(name, severity.lower(), subjects[subject], text) for name, severity, subject, text in rows]


def table_of(rows: List[Row]) -> str:
    """Returns the table of docs/reference/judge.md with these rows."""
    lines = [f"| `{row.name}` | {row.severity} | {row.subject[len('IEC 61158-'):]} | {row.text} |" for row in rows]
    return "\n".join([*HEAD, *lines, ""])


def list_of(rows: List[Row]) -> str:
    """Returns the list of the names in the help, whose lines end before column 100."""
    names = ", ".join(row.name for row in rows)
    return textwrap.fill(names, 98, initial_indent="  ", subsequent_indent="  ", break_on_hyphens=False) + "\n"


def write() -> None:
    """Writes the table into docs/reference/judge.md, and the list into the help."""
    rows = rows_of_source(SOURCE.read_text(encoding="utf-8"))
    for path, place, made in (CHAPTER, TABLE, table_of(rows)), (HELP, LIST, list_of(rows)):
        text = path.read_text(encoding="utf-8")
        path.write_text(place.sub(lambda _, made=made: made, text), encoding="utf-8")


if __name__ == "__main__":
    write()
