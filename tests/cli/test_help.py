"""The help of the program and of each of its words, its examples, and the version."""
import re

import pytest

from support.command_lines import REPLY
from support.processes import run_program

# The first line of the help of each word.
FIRST = {
    "run": "Run a script on a rack; 'rackd < INPUT' reads both from one text",
    "check": "Check whether a rack would have answered as an audit text says",
    "explain": "Explain an audit text in words, and check it as 'check' does",
    "judge": "Judge the masters of an audit text by the rules of the standard",
    "capture": "Write the telegrams of an audit text for Wireshark (pcapng)",
    "gsd": "Write a GSD file for a slave of a rack",
    "slave": "Write the slave of a GSD file as a part of a rack file",
    "serve": "Serve a rack to masters and operators at TCP ports of 127.0.0.1",
    "watch": "Show a rack that is served in a browser: who may change which slave",
    "operate": "Send commands to a line that is served, and print the answers",
    "cable": "Put a cable with faults between masters and a line that is served",
}
FIRST_OF_PROGRAM = "rackd simulates PROFIBUS DP slaves: try a master without hardware."

# Texts that the help of the program and of each word has, one behind another.
TEXTS = {
    "rackd": [
        "Begin with 'rackd serve examples/serve/rack.toml --tick 100'", "Usage: rackd COMMAND ..", "rackd < INPUT",
        "Commands ('rackd COMMAND --help'", "  serve ", "  check ", "  gsd ", "-h, --help", "-V, --version"],
    "run": [
        "Usage: rackd run RACK SCRIPT", "rackd < INPUT", "<RACK>", "<SCRIPT>", "exactly %%", "  line N ", "  m M HEX.. ",
        "  in A HEX ", "  diag A FLAGS HEX ", "  busy A POINT on ", "  busy A POINT off ", "  tick N ", "  halt ", "  step ",
        "  owned M ", "  show A ", "  journal ", "\nExit statuses of all commands:\n  0  ", "\n  1  ", "\n  2  ", "\n  3  ",
        "\n  4  ", "\n  5  ", "\nExamples:\n  rackd "],
    "check": [
        "Usage: rackd check RACK AUDIT..", "<RACK>", "<AUDIT>...", "'ready'", "  legal N ", "  bad line N ",
        "  not the policy N ", "\nExamples:\n  rackd "],
    "explain": [
        "Usage: rackd explain RACK AUDIT.. [--faults] [--from N] [--to N] [--slave A] [--master M]",
        "[--refused] [--summary | --json] [--follow]", "--from <N>", "1 to 4294967295 [default: 1]", "--to <N>",
        "1 to 4294967295", "--slave <A>", "0 to 255", "--master <M>", "0 to 255", "--faults", "--refused", "--summary",
        "--json", "--follow", "\nExamples:\n  rackd "],
    "judge": [
        "Usage: rackd judge RACK AUDIT.. [--master M] [--rules NAME,..] [--without NAME,..] [--retries N]", "[--json | --junit]",
        "--master <M>", "0 to 255", "--rules <NAME,..>", "--without <NAME,..>", "--retries <N>", "0 to 15 [default: 3]",
        "--requests-at-least <N>", "0 to 4294967295 [default: 1]", "--exchanges-at-least <N>", "--allow-untested",
        "--json", "--junit",
        "\nRules (docs/reference/judge.md", "\nExamples:\n  rackd "],
    "capture": [
        "Usage: rackd capture RACK AUDIT.. > FILE.pcapng", "<RACK>", "<AUDIT>...", "share/fdl.lua", "\nExamples:\n  rackd "],
    "gsd": [
        "Usage: rackd gsd RACK LINE ADDRESS [--vendor T] [--model T]", "<RACK>", "<LINE>", "0 to 255", "<ADDRESS>",
        "0 to 255", "--vendor <T>", "--model <T>", "\nExamples:\n  rackd "],
    "slave": [
        "Usage: rackd slave GSD [--module NAME..]", "rackd slave GSD --list", "<GSD>", "--module <NAME>", "--list",
        "\nExamples:\n  rackd "],
    "serve": [
        "Usage: rackd serve RACK [--sessions N] [--until-input-ends] [--ports FILE]",
        "[--audit FOLDER [--endless [--part MB] [--keep N]] [--page N]] [--tick MS]", "[--step MS] [--log [WHAT]]",
        "--sessions <N>", "1 to 1000000 [default: no limit]", "--audit <FOLDER>", "--endless", "4294967295; requires --audit",
        "--part <MB>", "1 to 4096", "requires --endless [default: 16]", "--keep <N>", "2 to 10000; requires --endless",
        "[default: delete none]", "--page <N>", "0 to 65535", "requires --audit [default: no page]", "--ports <FILE>",
        "--until-input-ends", "--tick <MS>", "10 to 60000", "--step <MS>", "1 to 86400000", "--log [<WHAT>]", "'sessions'",
        "'requests'", "'ready'", "line 1 listen 7101 operator 7201", "E5", "8208", "\nExamples:\n  rackd "],
    "watch": [
        "Usage: rackd watch RACK FOLDER [--port N]", "<RACK>", "<FOLDER>", "--port <N>", "127.0.0.1: 0 to 65535",
        "default: 0", "\nExamples:\n  rackd "],
    "operate": ["Usage: rackd operate PORT", "<PORT>", "1 to 65535", "rackd operate 7201"],
    "cable": [
        "Usage: rackd cable PORT --listen PORT2 [--lose P] [--spoil P] [--cut P] [--late P MS] [--delay MS]",
        "[--requests | --replies] [--seed N] [--resync MS] [--drop-tokens] [--log]", "<PORT>", "1 to 65535",
        "--listen <PORT2>", "0 to 65535", "--lose <P>", "--spoil <P>", "--cut <P>", "--late <P> <MS>", "0 to 60000",
        "--delay <MS>", "--requests", "--replies", "--seed <N>", "0 to 18446744073709551615", "--resync <MS>", "1 to 60000",
        "--drop-tokens", "--log", "--ports <FILE>", "  off A ", "  on A ", "  lose A N ", "  spoil A N ", "  cut A N ",
        "  late A N MS ", "  clear ", "\nExamples:\n  rackd "],
}

# The forms that print the help of the program, beside --help.
FORMS = {"rackd": ["-h", "help", "--help word", "-h run"]}
# The forms that print the help of a word, beside the word and --help.
FORMS.update({word: [f"{word} -h", f"help {word}"] for word in FIRST})
FORMS["check"].append("check rack --help")
FORMS["serve"].append("serve rack --sessions 1 -h")
FORMS["operate"].append("operate 7 --help")
SAME = [pytest.param(name, form, id=form.replace(" ", "-")) for name, forms in FORMS.items() for form in forms]

# The examples of the help that read files of the repository only, by what they are for.
EXAMPLES = {
    "run": ["rackd run examples/audit-rack.toml examples/audit-script.txt"],
    "check": ["rackd check examples/audit-rack.toml examples/audit.txt"],
    "explain": ["rackd explain examples/audit-rack.toml examples/audit.txt",
                "rackd explain examples/day-of-a-line-rack.toml examples/day-of-a-line.audit --faults --slave 5"],
}


@pytest.fixture(scope="module")
def helps(program):
    """The help of the program, by the name rackd, and of each word, each with how it ended."""
    words = {"rackd": ["--help"], **{word: [word, "--help"] for word in FIRST}}
    return {name: run_program([program, *form]) for name, form in words.items()}


@pytest.mark.parametrize("name", TEXTS)
def test_help(helps, name):
    """The help has its texts one behind another, and its first line; no line is longer than 100 characters."""
    status, text, errors = helps[name]
    assert (status, errors) == (0, "")
    assert text.split("\n")[0] == FIRST.get(name, FIRST_OF_PROGRAM)
    assert [row for row in text.split("\n") if len(row) > 100] == []
    rest = text
    for wanted in TEXTS[name]:
        assert wanted in rest, f"it is not behind the text before it, which ends before {rest[:60]!r}"
        rest = rest.split(wanted, 1)[1]


@pytest.mark.parametrize(("name", "form"), SAME)
def test_form_that_prints_the_same_help(run, helps, name, form):
    assert run(*form.split()) == helps[name]


@pytest.mark.parametrize("word", FIRST)
def test_help_of_the_program_describes_a_word(helps, word):
    assert f"\n  {word:7}  {FIRST[word]}\n" in helps["rackd"].output


def test_each_word_has_a_help_of_its_own(helps):
    assert len({ended.output for ended in helps.values()}) == len(FIRST) + 1


def test_help_of_the_program_fits_a_terminal_of_24_rows_and_80_columns(helps):
    rows = helps["rackd"].output.split("\n")[:-1]
    assert len(rows) <= 24
    assert [row for row in rows if len(row) > 80] == []


def test_help_of_judge_lists_the_rules(helps, top):
    """The rules are those of the table of docs/reference/judge.md, in its order."""
    text = helps["judge"].output.split("\nRules (")[1].split("\n\n")[0].split("\n", 1)[1]
    table = (top / "docs/reference/judge.md").read_text(encoding="utf-8").split("| Rule | Severity |")[1].split("\n\n")[0]
    assert re.findall(r"[a-z][a-z-]+", text) == re.findall(r"^\| `([a-z-]+)` \|", table, re.MULTILINE)


def test_help_of_operate_has_no_options_of_serve(helps):
    assert not re.search("^ +--(tick|step)", helps["operate"].output, re.MULTILINE)


@pytest.mark.parametrize("name", EXAMPLES)
def test_examples(run, top, helps, name):
    """The help has these examples and no others of files of the repository; each one works at the top of the repository."""
    assert re.findall("^  (rackd [a-z]* examples/[^<>\n]*)$", helps[name].output, re.MULTILINE) == EXAMPLES[name]
    for example in EXAMPLES[name]:
        ended = run(*example.split()[1:], cwd=top)
        assert (ended.status, ended.errors) == (0, "")
        assert ended.output


def test_input_in_the_help_of_run(run, helps):
    """The help of run has an input, from the first [[line]] to the next empty line, and the answer to it."""
    text = helps["run"].output
    example = text[text.index("[[line]]"):].split("\n\n")[0] + "\n"
    assert run(input=example) == (0, REPLY, "")
    assert f"\nis answered by\n\n{REPLY}" in text


@pytest.fixture(scope="module")
def kit(top):
    """The kit that README.md names as the trusted base."""
    text = (top / "README.md").read_text(encoding="utf-8")
    [found] = re.findall("^The trusted base is the kit `([^`]*)`", text, re.MULTILINE)
    return found


@pytest.mark.parametrize("form", ["--version", "-V"])
def test_version(run, kit, form):
    """The version names the kit of README.md."""
    assert run(form) == (0, f"rackd 0.2.0 ({kit})\n", "")


def test_kit_that_built_the_carried_program(top, kit):
    """The carried program was built by the kit of README.md, or by another one with the same logic."""
    built = (top / "dist/x86_64-linux/rackd.built").read_text(encoding="utf-8")
    assert re.findall("^toolchain .* (logic [^ \n]+)$", built, re.MULTILINE) == [f"logic {kit.split(' ')[-1]}"]
