"""Stored explanations: `rackd explain` and `rackd check` of each stored audit text write what is stored beside it.

The README of this folder says which files are a case. If the program made by the other compiler is there too, it has to
write the same.
"""
from pathlib import Path

from support.command_lines import without_reason, without_row_of_file
from support.explanations import (STORED, audit_of, cases_of, differences, each_text, name_of, status_of, stored_audits,
                                  stored_cases, verdict_of, whole_explanation)
from support.processes import run_program

# The kinds of files that belong to a case.
KINDS = (".audit", ".options", ".out", ".err")


@each_text
def test_explanation(by, audit):
    """Each stored explanation of a text, with each of its stored options, is written again."""
    cases, faults = cases_of(audit), []
    assert cases, "there is no explanation of this text"
    for case in cases:
        done = run_program([by, "explain", case.rack, case.audit, *case.options])
        errors = without_reason(done.errors) if done.status == 1 else without_row_of_file(done).errors
        status, name = status_of(verdict_of(case.expected)), name_of(case.base)
        faults += [f"{name}: status {done.status}, not {status}"] if done.status != status else []
        faults += differences((f"{name}, output", case.expected, done.output),
                              (f"{name}, standard error", case.errors, errors))
    assert not faults, "\n".join(faults)


@each_text
def test_check(by, audit):
    """The verdict of a check is the last row of each explanation of the text."""
    for case in cases_of(audit):
        if case.expected:
            assert verdict_of(case.expected) == verdict_of(whole_explanation(audit)), name_of(case.base)
    verdict = verdict_of(whole_explanation(audit))
    done = run_program([by, "check", audit.parent / "rack.toml", audit])
    assert (done.status, done.output) == (status_of(verdict), f"{verdict}\n" if verdict else "")


def test_files():
    """Each file is of a kind that is read, and belongs to a case."""
    found = [path for path in STORED.glob("*/*") if path.name != "rack.toml" and path.parent.name != "__pycache__"]
    assert [str(path) for path in found if path.suffix not in KINDS] == []
    assert [str(path) for path in found if not path.with_suffix(".out").exists()] == [], "these files have no explanation"
    assert [str(path) for path in found if not audit_of(path.with_suffix("")).exists()] == [], "these files have no audit text"


def test_number_of_cases():
    """All cases of all texts are tried, and there are as many as there were at least."""
    tried = [case for audit in stored_audits() for case in cases_of(audit)]
    assert sorted(tried) == sorted(stored_cases())
    assert len(stored_audits()) >= 116
    assert len(tried) >= 315
    assert len({Path(audit).parent for audit in stored_audits()}) >= 8
