"""The explainer of `tests/oracle` writes each stored explanation: expected texts come from it, never from the program."""
import subprocess
import sys

import pytest

from support.explanations import (DAY, STORED, TOP, Case, cases_of, differences, name_of, read, status_of, stored_audits,
                                  stored_cases, verdict_of)
from support.processes import PATIENCE

pytest.importorskip("tomllib", reason="Python has no tomllib, by which the explainer reads rack files: 3.11 has it")

from oracle.explainer import explain  # noqa: E402

EXPLAINER = TOP / "tests" / "oracle" / "explainer.py"


def run_explainer(*words, cwd=None):
    command = [sys.executable, EXPLAINER, *words]
    return subprocess.run(command, capture_output=True, text=True, cwd=cwd, timeout=PATIENCE, check=False)


def faults_of(name, words, wanted, errors):
    """Returns in what the explainer differs from the stored text of these words."""
    status, output, written = explain([str(word) for word in words])
    faults = [f"{name}: status {status}"] if status != status_of(verdict_of(wanted)) else []
    return faults + differences((f"{name}, output", wanted, output), (f"{name}, standard error", errors, written))


@pytest.mark.parametrize("audit", stored_audits(), ids=name_of)
def test_stored_text(audit):
    cases = cases_of(audit)
    assert cases, "there is no explanation of this text"
    faults = []
    for case in cases:
        faults += faults_of(name_of(case.base), [case.rack, audit, *case.options], case.expected, case.errors)
    assert not faults, "\n".join(faults)


def test_day_of_a_line():
    words = [DAY.with_name("day-of-a-line-rack.toml"), DAY.with_suffix(".audit")]
    faults = faults_of("the day of a line", words, read(DAY.with_suffix(".explained")), "")
    assert not faults, "\n".join(faults)


@pytest.mark.parametrize("name", ["eight-slaves/retries-faults", "eight-slaves/holds-json", "eight-slaves/holds-slave_99"])
def test_words(name):
    """The explainer is a program too, from which the text of a new case is taken as the README of this folder says."""
    case = next(case for case in stored_cases() if name_of(case.base) == name)
    done = run_explainer("rack.toml", case.audit.name, *case.options, cwd=STORED / name.split("/")[0])
    assert (done.stdout, done.stderr) == (case.expected, Case(case.base, case.audit.name).errors)
    assert done.returncode == status_of(verdict_of(case.expected))


def test_all_at_once():
    """`explainer.py --all` compares every stored case, and the day of a line of the examples."""
    done = run_explainer("--all")
    assert (done.stdout, done.returncode) == (f"{len(stored_cases()) + 1} agree, 0 differ\n", 0)
