"""Heads of parts: each stored text is taken as that of an endless line, and cut behind each of its entries.

The model of heads in `tests/oracle` writes the head of the line there. The program has to accept each head behind the entries
before it, and to say of each head with what follows it what the explainer says of that.
"""
import pytest

from support.explanations import DAY, differences, name_of, read, rows_of, stored_audits, verdict_of
from support.processes import run_program

pytest.importorskip("tomllib", reason="Python has no tomllib, by which the explainer reads rack files: 3.11 has it")

from oracle.heads import cases_of  # noqa: E402

TEXTS = {name_of(audit): (audit.parent / "rack.toml", audit) for audit in stored_audits()}
TEXTS["examples/day-of-a-line"] = (DAY.with_name("day-of-a-line-rack.toml"), DAY.with_suffix(".audit"))
# Texts that cannot be cut: their racks are refused, or they do not begin with the header of a line.
WITHOUT_CUTS = {
    "bad-rack/rack_that_is_refused", "eight-slaves/wrong_text_empty", "eight-slaves/wrong_text_other_line",
    "eight-slaves/wrong_text_ready", "eight-slaves/wrong_text_version_1", "eight-slaves/wrong_text_version_4",
    "eight-slaves/wrong_text_within_the_header", "eight-slaves/wrong_text_without_lf",
}


def explanation_is_legal(name):
    """Returns whether the stored explanation of a text says that it is legal."""
    explained = DAY.with_suffix(".explained") if name.startswith("examples/") else TEXTS[name][1].with_suffix(".out")
    return verdict_of(read(explained)).startswith("legal ")


def faults_of(program, case, folder):
    """Returns in what the program differs from the explainer about a text with a head."""
    audit, status = folder / "cut.audit", 0 if case.verdict.startswith("legal") else 1
    audit.write_bytes(case.text.encode())
    wanted = [("check", f"{case.verdict}\n")] + ([] if case.explained is None else [("explain", case.explained)])
    faults = []
    for command, output in wanted:
        done = run_program([program, command, case.rack, audit])
        faults += differences((f"{case.name}, {command}", output, done.output))
        faults += [f"{case.name}, {command}: status {done.status}, not {status}"] if done.status != status else []
    return faults


@pytest.mark.parametrize("name", TEXTS)
def test_cuts(program, tmp_path, name):
    cases, faults = cases_of(*map(str, TEXTS[name])), []
    assert (cases == []) == (name in WITHOUT_CUTS)
    if explanation_is_legal(name):
        assert len(cases) == len(rows_of(read(TEXTS[name][1]))) + 1, "a head for each row, and the text with all heads"
    for case in cases:
        faults += faults_of(program, case, tmp_path)
    assert not faults, f"{len(faults)} differences in {len(cases)} texts\n" + "\n".join(faults[:4])
