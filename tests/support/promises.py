#!/usr/bin/env python3
"""Lists the promises among the definitions: what a reader has to believe to rely on what README says is proved.

usage: tests/support/promises.py [--check] [FOLDER]

Each file of crates/CRATE/specs begins with the row `-- promise`, `-- detail` or `-- helper` (docs/internals/reading-the-proof.md).
Without an option, a row for each promise is printed: its crate, its file, its lines without imports and empty ones, and the first
sentence of its head; and then their sum. With --check, files that break a rule of the marks are printed, and the status is 1 if
there are any. FOLDER is the top of a repository; if it is missing, it is this one.
"""
import argparse
import re
import sys
from pathlib import Path
from typing import Dict, List, NamedTuple, Set

TOP = Path(__file__).resolve().parents[2]
MARKS = ("promise", "detail", "helper")
USE = re.compile(r"^(?:pub )?use Rattle\.(\w+)\.specs\.(\w+)", re.MULTILINE)


class Definitions(NamedTuple):
    """A file of definitions: its crate, its name, its mark (empty if it has none), and its text behind the mark."""

    crate: str
    name: str
    mark: str
    text: str

    @property
    def lines(self) -> int:
        """The number of lines that are no imports and not empty."""
        return sum(1 for line in self.text.splitlines() if line.strip() and not re.match(r"(pub )?use ", line))

    @property
    def head(self) -> str:
        """The first sentence of the comment at the top."""
        comment: List[str] = []
        for line in self.text.splitlines():
            if not line.startswith("--"):
                break
            comment.append(line.removeprefix("--").strip())
        return re.split(r"(?<=[.!?])\s", " ".join(comment), maxsplit=1)[0]

    @property
    def cited(self) -> Set[str]:
        """The files of definitions that it imports, as CRATE.NAME."""
        return {f"{crate}.{name}" for crate, name in USE.findall(self.text)}


def read_definitions(path: Path) -> Definitions:
    """Reads a file of definitions."""
    first, _, rest = path.read_text(encoding="utf-8").partition("\n")
    mark = first.removeprefix("-- ")
    is_marked = first.startswith("-- ") and mark in MARKS
    return Definitions(path.parts[-3], path.stem, mark if is_marked else "", rest if is_marked else f"{first}\n{rest}")


def all_definitions(top: Path) -> List[Definitions]:
    """Returns all files of definitions, by crate and name."""
    return [read_definitions(path) for path in sorted(top.glob("crates/*/specs/*.antt"))]


def faults_of(definitions: List[Definitions]) -> List[str]:
    """Returns what breaks a rule of the marks: a file without a mark, and a promise or a detail that cites a helper."""
    marks: Dict[str, str] = {f"{file.crate}.{file.name}": file.mark for file in definitions}
    faults = [f"crates/{file.crate}/specs/{file.name}.antt: the first row is no mark" for file in definitions if not file.mark]
    for file in definitions:
        if file.mark in ("promise", "detail"):
            faults += [f"crates/{file.crate}/specs/{file.name}.antt: a {file.mark} cites the helper {cited}"
                       for cited in sorted(file.cited) if marks.get(cited) == "helper"]
    return faults


def table_of(definitions: List[Definitions]) -> List[str]:
    """Returns a row for each promise, and their sum."""
    promises = [file for file in definitions if file.mark == "promise"]
    rows = [f"{file.crate:16} {file.name:20} {file.lines:5}  {file.head}" for file in promises]
    return [*rows, f"{len(promises)} promises, {sum(file.lines for file in promises)} lines"]


def main() -> None:
    parser = argparse.ArgumentParser(usage="tests/support/promises.py [--check] [FOLDER]")
    parser.add_argument("--check", action="store_true", help="print what breaks a rule of the marks")
    parser.add_argument("top", type=Path, nargs="?", default=TOP, metavar="FOLDER")
    options = parser.parse_args()
    definitions = all_definitions(options.top)
    rows = faults_of(definitions) if options.check else table_of(definitions)
    print("\n".join(rows), end="\n" if rows else "")
    sys.exit(1 if options.check and rows else 0)


if __name__ == "__main__":
    main()
