"""The words of `python -m rackd suite`, the scenarios that it lists, and the program that it starts."""
import pytest

from support.package_runs import executable, run_python
from support.suite_runs import HEAD, assert_cannot_run

NAMES = ["another-master", "bring-up", "busy-slave", "configuration-refused", "diagnosis-during-exchange", "fail-safe",
         "late-reply", "parameters-refused", "reply-lost", "several-configurations", "slave-lost-and-back",
         "slave-lost-for-300-ms", "spoilt-reply", "sync-and-freeze", "two-masters", "watchdog-expiry", "wrong-ident-at-first"]
NOTHING = HEAD + "def run(bus):\n    pass\n"


@pytest.mark.parametrize("words, cause", [
    ([], "COMMAND is missing"), (["--list", "true"], "--list takes no COMMAND"),
    (["--timeout", "0", "true"], "--timeout: SECONDS is no number"), (["--timeout", "x", "true"], "--timeout: SECONDS"),
    (["--timeout", "nan", "true"], "--timeout: SECONDS"), (["--timeout", "3601", "true"], "--timeout: SECONDS"),
    (["--connect", "0.5", "true"], "--connect: SECONDS is no number from 1 to 3600"),
    (["--jobs", "0", "true"], "--jobs: N is no number from 1 to 64"), (["--jobs", "1.5", "true"], "--jobs: N is no number"),
    (["--jobs", "65", "true"], "--jobs: N is no number"), (["--seconds", "3", "true"], "--seconds"),
    (["--only", "bring-down", "true"], "no scenario bring-down in "),
    (["--folder", "nowhere", "true"], "no scenarios in nowhere"), (["./no-master"], r"cannot start \./no-master: No such file"),
], ids=lambda part: " ".join(part) if isinstance(part, list) else "")
def test_wrong_words(suite, words, cause):
    assert_cannot_run(suite.run(*words), cause)


@pytest.mark.parametrize("words, status", [([], 2), (["judge"], 2), (["--help"], 0), (["-h"], 0), (["suite", "--help"], 0)])
def test_other_words(tmp_path, words, status):
    done = run_python(tmp_path, "-m", "rackd", *words)
    assert done.status == status
    assert "python -m rackd suite [OPTION].. COMMAND.." in done.output + done.errors


def test_list(suite):
    done = suite.run("--list", RACKD="/nowhere")
    assert (done.status, done.errors) == (0, "")
    rows = done.output.splitlines()
    assert [row.split(" ")[0] for row in rows] == NAMES
    assert rows[1] == f"{'bring-up':27}Three slaves are brought up: their outputs are set, and their inputs are seen."


def test_list_of_some(suite):
    done = suite.run("--list", "--only", "fail-safe", "--only", "bring-up")
    assert [row.split(" ")[0] for row in done.output.splitlines()] == ["bring-up", "fail-safe"]


def test_no_program(suite):
    suite.scenario("one", NOTHING)
    assert_cannot_run(suite.own("true", RACKD="/nowhere"), "/nowhere is no program")


@pytest.mark.parametrize("judge, cause", [
    pytest.param("echo wrong words >&2; exit 2", "rackd judge ended with status 2\nwrong words", id="without"),
    pytest.param("exit 1", "rackd judge did not find the journal of line 1 legal", id="no-verdict"),
    pytest.param('echo \'{"verdict":"bad line","row":3}\'; exit 1', "not find the journal of line 1", id="not-legal"),
])
def test_program_that_does_not_judge(suite, program, judge, cause):
    suite.scenario("one", NOTHING)
    text = f'#!/bin/bash\n[ "$1" != judge ] || {{ {judge}; }}\nexec {program} "$@"\n'
    assert_cannot_run(suite.own("true", RACKD=executable(suite.folder / "stand-in", text)), cause)
