"""The examples of examples/ answer what their stored outputs say."""
import pytest

from support.command_lines import OTHER_RACK

INPUTS = ["slave-diag", "streams", "two-lines", "lock-and-exchange", "day-of-a-line", "sync-and-freeze", "lists", "fail-safe"]


@pytest.fixture
def examples(top):
    return top / "examples"


@pytest.mark.parametrize("name", INPUTS)
def test_input(run, examples, name):
    text = (examples / f"{name}.txt").read_bytes()
    assert run(input=text) == (0, (examples / f"{name}.out").read_text(encoding="utf-8"), "")


def test_audit_script(run, examples):
    """The output ends with the audit text of the example."""
    wanted = (examples / "audit-script.out").read_text(encoding="utf-8")
    assert run("run", "audit-rack.toml", "audit-script.txt", cwd=examples) == (0, wanted, "")
    assert wanted[wanted.index("rack-audit"):] == (examples / "audit.txt").read_text(encoding="utf-8")


def test_audit(run, examples):
    wanted = (examples / "audit.out").read_text(encoding="utf-8")
    assert run("check", "audit-rack.toml", "audit.txt", cwd=examples) == (0, wanted, "")


def test_audit_changed(run, examples):
    wanted = (examples / "audit-changed.out").read_text(encoding="utf-8")
    errors = (
        '  row 7 of audit-changed.txt: written "6 tick 9 | none | released 5"\n'
        f'  the policy gives "6 tick 9 | none | released"\n{OTHER_RACK}')
    assert run("check", "audit-rack.toml", "audit-changed.txt", cwd=examples) == (1, wanted, errors)


def test_day_of_a_line_explained(run, examples):
    wanted = (examples / "day-of-a-line.explained").read_text(encoding="utf-8")
    assert run("explain", "day-of-a-line-rack.toml", "day-of-a-line.audit", cwd=examples) == (0, wanted, "")


@pytest.mark.parametrize("place", ["65536", "4294967295"], ids=["of-a-line", "of-an-endless-line"])
def test_explain_from_the_last_place(run, examples, place):
    """The text has no entry at the last place that a line can have: only the summary is explained."""
    explained = (examples / "day-of-a-line.explained").read_text(encoding="utf-8")
    summary = explained[explained.index("\nholds\n") + 1:]
    ended = run("explain", "day-of-a-line-rack.toml", "day-of-a-line.audit", "--from", place, "--to", place, cwd=examples)
    assert ended == (0, summary, "")
