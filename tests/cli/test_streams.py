"""Standard streams that are closed or full, and readers that end before the program."""
import errno
import os
import subprocess

import pytest

from support.command_lines import RACK, REPLY, SLAVE_DIAG, Case, table
from support.processes import PATIENCE, run_program

CANNOT_WRITE = "rackd: cannot write\n"
SCRIPT = f"{RACK}%%\n{SLAVE_DIAG}"


@pytest.fixture
def redirected(program, files):
    """A function that runs the program with streams that are closed or full, as a shell names them."""
    def call(redirections, words, text):
        wrapper = ["bash", "-c", f'exec "$@" {redirections}', "bash"]
        return run_program([*wrapper, program, *words.split()], input=text, cwd=files / "f")

    return call


# Cases without output, or with it: `status` is that with standard error closed or full. With an output, the status is 4 if
# standard output is closed too.
WITHOUT_OUTPUT = {
    "a-script-that-is-done": Case(input=RACK),
    "a-wrong-word": Case("word", 2, input=RACK),
    "a-word-that-is-not-UTF-8": Case("\udcff", 2, input=RACK),
    "input-that-is-not-UTF-8": Case(status=2, input=b"\xff\n"),
    "broken-TOML": Case(status=2, input="[[line"),
    "an-unknown-key": Case(status=2, input=f"colour = 1\n{RACK}"),
    "two-lines-with-one-number": Case(status=2, input=RACK * 2),
    "a-rack-that-is-refused": Case(status=2, input=RACK.replace("1000", "1")),
    "no-command": Case(status=2, input=f"{RACK}%%\nx\n"),
    "a-file-that-is-missing": Case("check rack none", 2),
    "a-line-without-ports": Case("serve rack", 2),
    "one-port-twice": Case("serve same", 2),
}
WITH_OUTPUT = {
    "a-reply": Case(input=SCRIPT),
    "help": Case("--help"),
    "help-of-a-word": Case("run --help"),
    "version": Case("--version"),
    "a-script-in-a-file": Case("run rack script"),
    "a-legal-audit-text": Case("check rack audit"),
    "an-explanation": Case("explain rack audit"),
    "a-check-that-is-not-legal": Case("check rack empty", 1),
    "a-reply-and-no-command": Case(status=2, input=f"{SCRIPT}x\n"),
}


@pytest.mark.parametrize("errors", ["2>&-", "2>/dev/full"], ids=["closed", "full"])
@table({**WITHOUT_OUTPUT, **WITH_OUTPUT})
def test_standard_error_changes_no_status_and_no_output(run, redirected, files, case, errors):
    status, output, _ = redirected(errors, case.words, case.input)
    assert status == case.status
    assert output == run(*case.words.split(), input=case.input, cwd=files / "f").output


@pytest.mark.parametrize(
    ("case", "status"),
    [*(pytest.param(case, case.status, id=name) for name, case in WITHOUT_OUTPUT.items()),
     *(pytest.param(case, 4, id=name) for name, case in WITH_OUTPUT.items())])
def test_standard_output_and_standard_error_are_closed(redirected, case, status):
    assert redirected(">&- 2>&-", case.words, case.input) == (status, "", "")


CANNOT_READ = f"rackd: cannot read -\n  system error {errno.EBADF}\n"


@pytest.mark.parametrize(("redirections", "errors"), [
    pytest.param("<&-", CANNOT_READ, id="alone"),
    pytest.param("<&- 2>&-", "", id="with-standard-error"),
    pytest.param("<&- >&-", CANNOT_READ, id="with-standard-output"),
])
def test_standard_input_is_closed(redirected, redirections, errors):
    assert redirected(redirections, "", "") == (2, "", errors)


CLOSED, FULL = ">&-", ">/dev/full"
# The words, the input, and where standard output goes.
UNWRITTEN = {
    "answers-closed": ("", SCRIPT, CLOSED),
    "answers-full": ("", SCRIPT, FULL),
    "help-closed": ("--help", "", CLOSED),
    "help-full": ("--help", "", FULL),
    "help-of-a-word-full": ("serve --help", "", FULL),
    "help-and-a-word-closed": ("help run", "", CLOSED),
    "version-full": ("--version", "", FULL),
    "a-script-in-a-file-full": ("run rack script", "", FULL),
    "a-check-full": ("check rack audit", "", FULL),
    "an-explanation-full": ("explain rack audit", "", FULL),
    "a-check-that-is-not-legal-closed": ("check rack empty", "", CLOSED),
    "a-fault-of-the-output-before-one-of-the-script": ("", f"{SCRIPT}x\n", FULL),
}


@pytest.mark.parametrize(("words", "text", "output"), UNWRITTEN.values(), ids=UNWRITTEN)
def test_output_that_cannot_be_written(redirected, words, text, output):
    assert redirected(output, words, text) == (4, "", CANNOT_WRITE)


def read_first_row(program, words, files, text=""):
    """Runs the program, reads the first row of its output and closes it; returns the row, the status and the errors.

    The output must be more than a pipe takes, so that the program is still writing when its reader ends.
    """
    (files / "input").write_text(text, encoding="utf-8")
    with open(files / "input", "rb") as given:
        process = subprocess.Popen([program, *words.split()], stdin=given, stdout=subprocess.PIPE, stderr=subprocess.PIPE,
                                   cwd=files / "f")
    with process:
        try:
            row = process.stdout.readline()
            process.stdout.close()
            _, errors = process.communicate(timeout=PATIENCE)
        finally:
            process.kill()
    return row.decode(), process.returncode, errors.decode()


def test_reader_of_answers_that_goes_away(program, files):
    text = f"{RACK}%%\n{SLAVE_DIAG * 20000}"
    assert read_first_row(program, "", files, text) == (REPLY, 4, CANNOT_WRITE)


def test_output_that_has_no_reader(program, files):
    """No signal ends the program when it writes to a pipe that nobody reads."""
    reader, writer = os.pipe()
    os.close(reader)
    try:
        ended = subprocess.run([program, "run", "rack", "script"], stdin=subprocess.DEVNULL, stdout=writer,
                               stderr=subprocess.PIPE, cwd=files / "f", timeout=PATIENCE, check=False)
    finally:
        os.close(writer)
    assert (ended.returncode, ended.stderr.decode()) == (4, CANNOT_WRITE)


def test_reader_of_an_explanation_that_ends(run, program, files):
    """A reader of an explanation may end when it has seen enough: that is no fault."""
    answers = run(input=f"{RACK}%%\n{SLAVE_DIAG * 900}journal\n").output
    (files / "f/long").write_text(answers[answers.index("rack-audit"):], encoding="utf-8")
    row = "    1  master 1 -> slave 5       SD2 SRD high FCB 1 FCV 0  Slave_Diag (60) from 62\n"
    assert read_first_row(program, "explain rack long", files) == (row, 0, "")
