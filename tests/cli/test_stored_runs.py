"""The stored runs of tests/runs, whose README.md says which files are a case.

Each case runs by the program under test, and by PROGRAM.by-rattle if that is there: the same program, made by the other compiler.
"""
import os
import re
from pathlib import Path
from typing import NamedTuple

import pytest

from support.command_lines import without_row_of_file
from support.processes import run_program

RUNS = Path(__file__).resolve().parents[1] / "runs"
# What each ending of a file may stand beside: a case is a file with one of the first endings, and each other belongs to one.
CASES = ("script", "audit", "cut", "rows", "racks")
BESIDE = {"out": ("script", "audit"), "err": ("script", "audit", "rows", "racks"), "causes": ("racks", "rows", "audit")}
OTHER_COMPILER = ".by-rattle"


def is_there():
    """Returns whether the program that the other compiler made is there, and not older than the program under test."""
    program = Path(os.environ["RACKD"])
    other = Path(f"{program}{OTHER_COMPILER}")
    return other.exists() and program.stat().st_mtime_ns <= other.stat().st_mtime_ns


class Stored(NamedTuple):
    """A stored run, and the program that it runs by."""

    path: Path
    program: str

    def text(self, ending):
        """Returns what is stored with this ending, without changes of its ends of rows; nothing if there is no such file."""
        path = self.path.with_name(f"{self.path.stem}.{ending}")
        return path.read_bytes().decode() if path.exists() else ""

    def run(self, word, rack="rack.toml", second=None):
        """Runs the program on a rack and the file of the case in the folder of the case."""
        return run_program([self.program, word, rack, second or self.path.name], cwd=self.path.parent)


def stored(ending):
    """Parametrizes a test with the stored runs that have a file with this ending."""
    endings = ["", OTHER_COMPILER] if is_there() else [""]
    return pytest.mark.parametrize("case", [
        pytest.param(Stored(path, os.environ["RACKD"] + other), id=f"{path.parent.name}/{path.stem}{other}")
        for other in endings for path in sorted(RUNS.glob(f"*/*.{ending}"))])


def test_program_of_the_other_compiler():
    """It is the same program: that its cases run too is seen by their ids."""
    program = os.environ["RACKD"]
    if not is_there():
        pytest.skip(f"there is no {Path(program).name}{OTHER_COMPILER}, or an older one")
    assert run_program([program + OTHER_COMPILER, "--version"]) == run_program([program, "--version"])


@stored("script")
def test_script(case):
    """A script writes what is stored; its status is 2 if a fault is stored."""
    assert case.path.with_suffix(".out").exists(), "its .out is missing"
    errors = case.text("err")
    assert case.run("run") == (2 if errors else 0, case.text("out"), errors)


@stored("audit")
def test_audit(case):
    """The check of an audit text writes what is stored; `.causes` has FILE in place of the path of the text."""
    assert case.path.with_suffix(".out").exists(), "its .out is missing"
    output, errors = case.text("out"), case.text("err")
    status = 2 if errors else 1
    if output.startswith("legal "):
        status = 0
    causes = case.text("causes").replace(" of FILE: ", f" of {case.path.name}: ", 1)
    ended = case.run("check")
    if output.startswith("bad line ") and not (causes or errors):
        row = output.split()[-1]
        assert ended[:2] == (status, output)
        file = re.escape(case.path.name)
        assert re.match(rf"  (row {row} of {file}: |row {row} of the text: |{file} is empty)", ended[2])
    else:
        assert without_row_of_file(ended) == (status, output, causes or errors)


@stored("cut")
def test_cut(case, tmp_path):
    """A legal text that ends within row K is a bad line K, and that is reported; behind row K it is legal with K - 1 entries."""
    text, cut, wrong = case.path.read_bytes(), tmp_path / "audit", {}
    for size in range(1, len(text) + 1):
        cut.write_bytes(text[:size])
        rows = text[:size].count(b"\n")
        if text[:size].endswith(b"\n"):
            expected = (0, f"legal {rows - 1}\n", "")
        else:
            row = rows + 1
            expected = (1, f"bad line {row}\n", f"  row {row} of {cut}: the text ends within this row, as after a kill\n")
        ended = case.run("check", second=cut)
        if ended != expected:
            wrong[size] = ended
    assert wrong == {}
    assert text.count(b"\n") > 1


@stored("rows")
def test_rows(case, tmp_path):
    """Each row that is not empty and no comment is a wrong command, alone as a script; nothing is written but the fault."""
    rows = [row for row in case.text("rows").split("\n") if row and not row.startswith("#")]
    causes, fault = case.text("causes").split("\n")[:-1], case.text("err")
    assert rows and fault
    assert len(causes) == len(rows)
    script = tmp_path / "script"
    for row, cause in zip(rows, causes):
        script.write_bytes(row.encode())
        assert (row, case.run("run", second=script)) == (row, (2, "", f"{fault}{cause}\n"))


@stored("racks")
def test_racks(case, tmp_path):
    """Each of the racks is refused before the script of the folder; nothing is written but the fault."""
    racks = case.text("racks").split("---\n")
    causes, fault = case.text("causes").split("\n")[:-1], case.text("err")
    assert fault
    assert len(causes) == len(racks)
    rack = tmp_path / "rack"
    for text, cause in zip(racks, causes):
        rack.write_bytes(text.encode())
        ended = without_row_of_file(case.run("run", rack, "script"))
        assert (text, ended) == (text, (2, "", f"{fault}{cause}\n"))


@pytest.mark.parametrize("ending", CASES)
def test_there_are_cases(ending):
    assert list(RUNS.glob(f"*/*.{ending}"))


def test_each_file_belongs_to_a_case():
    strays = []
    for path in sorted(RUNS.glob("*/*")):
        beside = BESIDE.get(path.suffix[1:], ())
        if path.name not in ("rack.toml", "script") and path.suffix[1:] not in CASES \
                and not any(path.with_suffix(f".{ending}").exists() for ending in beside):
            strays.append(path.name)
    assert strays == []
