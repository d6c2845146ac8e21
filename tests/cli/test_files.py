"""The words that read files: `run` with a script, and which file of `run`, `check` and `explain` is reported."""
import pytest

from support.command_lines import NO_COMMAND, NOT_TOML, RACK, REPLY, TWO_PERCENT_SIGNS, Case, no_file, not_utf_8, table

RUN = {
    "a-rack-and-a-script": Case("run f/rack f/script", 0, REPLY),
    "standard-input-is-left": Case("run f/rack f/script", 0, REPLY, input="x"),
    "an-empty-script": Case("run f/rack f/empty"),
    "a-line-that-is-no-command": Case("run f/rack f/wrong", 2, REPLY, f"rackd: script line 2\n{NO_COMMAND}"),
    "a-file-that-is-no-rack": Case("run f/script f/wrong", 2, "", NOT_TOML),
    "two-percent-signs-in-a-rack-file": Case(
        "run f/both f/script", 2, "", TWO_PERCENT_SIGNS.replace("standard input", "f/both")),
    "two-percent-signs-in-a-script-file": Case("run f/rack f/mark", 2, "", f"rackd: script line 1\n{NO_COMMAND}"),
}


@table(RUN)
def test_run(run, files, case):
    assert run(*case.words.split(), cwd=files, input=case.input) == case.ended


def test_file_whose_name_is_a_dash(run, files):
    assert run("run", "-", "script", cwd=files / "f") == (0, REPLY, "")


# The two files of a word, and what is reported.
REFUSED = {
    "no-rack-file": ("f/none f/audit", no_file("f/none")),
    "no-second-file": ("f/rack f/none", no_file("f/none")),
    "the-rack-file-comes-first": ("f/nothing f/none", no_file("f/nothing")),
    "files-come-before-what-they-hold": ("f/script f/none", no_file("f/none")),
    "a-rack-that-is-not-UTF-8": ("f/latin f/audit", not_utf_8("f/latin")),
    "a-second-file-that-is-not-UTF-8": ("f/rack f/latin", not_utf_8("f/latin")),
    "a-folder": ("f/folder f/audit", "rackd: cannot read f/folder\n  it is a folder, not a file\n"),
}


@pytest.mark.parametrize("word", ["run", "check", "explain"])
@pytest.mark.parametrize(("names", "errors"), REFUSED.values(), ids=REFUSED)
def test_file_that_cannot_be_read(run, files, word, names, errors):
    assert run(word, *names.split(), cwd=files) == (2, "", errors)


@pytest.mark.parametrize("word", ["run", "check", "explain"])
def test_word_that_is_a_dash(run, files, word):
    """A dash is the name of a file, and no standard input: the rack that comes there is not read."""
    assert run(word, "-", "f/audit", cwd=files, input=RACK) == (2, "", no_file("-"))


GSD = {
    "a-line-that-is-not-there": Case("gsd f/rack 9 5", 2, "", "rackd: the rack has no line 9\n"),
    "a-slave-that-is-not-there": Case("gsd f/rack 1 9", 2, "", "rackd: the line has no slave 9\n"),
    "an-empty-GSD-file": Case(
        "slave f/empty", 2, "", "rackd: cannot use f/empty\n  row 1: #Profibus_DP is missing before this row\n"),
    "a-GSD-file-that-is-not-there": Case("slave f/none", 2, "", no_file("f/none")),
}


@table(GSD)
def test_gsd_and_slave(run, files, case):
    assert run(*case.words.split(), cwd=files) == case.ended


def test_gsd_with_a_quote_in_a_name(run, files):
    ended = run("gsd", "f/rack", "1", "5", "--model", 'a "b"', cwd=files)
    assert ended == (2, "", "rackd: a name for the GSD file is not accepted\n  model: a quote in a name\n")
