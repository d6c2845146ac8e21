"""The man page and the completions have each word and each option of the help, and no other."""
import importlib.util
import re
import shutil
import subprocess
import sys

import pytest

from support.repository import TOP, read

spec = importlib.util.spec_from_file_location("manual", TOP / "dist/manual.py")
manual = importlib.util.module_from_spec(spec)
spec.loader.exec_module(manual)

PAGE = "share/man/man1/rackd.1"
COMPLETIONS = {"bash": "share/bash-completion/completions/rackd", "zsh": "share/zsh/site-functions/_rackd",
               "fish": "share/fish/vendor_completions.d/rackd.fish"}


def words_of(help_text):
    """Returns the words that the help of the program lists, each with what it does."""
    listed = help_text.partition("\nCommands")[2].partition("\n\n")[0].split("\n")[1:]
    return {row.split()[0]: row.split(maxsplit=1)[1] for row in listed if row.split()[0] != "help"}


def options_of(help_text):
    """Returns the options of a help, long and short."""
    rows = help_text.partition("\nOptions:\n")[2].partition("\n\n")[0].split("\n")
    return {option for row in rows for option in re.findall(r"(?:^ {2,6}|, )(--?[A-Za-z-]+)", row)}


@pytest.fixture(scope="module")
def helps(program):
    """The help of each word of the program."""
    def text(*words):
        return subprocess.run([program, *words, "--help"], check=True, capture_output=True, text=True).stdout

    return {word: text(word) for word in words_of(text())}


def complete(made, *words):
    """Returns what bash completes the last of these words to, by the file of completions."""
    script = f'. "$1"; shift; COMP_WORDS=("$@"); COMP_CWORD={len(words) - 1}; _rackd; printf "%s\\n" "${{COMPREPLY[@]}}"'
    command = ["bash", "-c", script, "bash", made / COMPLETIONS["bash"], *words]
    return set(subprocess.run(command, check=True, capture_output=True, text=True).stdout.split())


def plain(text):
    """Returns a text without what differs by the width of a page and the kind of its characters."""
    return re.sub(r"[\s\u2010\u00ad]+", " ", text.replace("\u2019", "'").replace("\u2212", "-"))


def rendered(made):
    """Returns the man page as groff shows it, which has nothing to complain of."""
    if shutil.which("groff") is None:
        pytest.skip("groff is not installed")
    words = ["groff", "-man", "-Tutf8", "-P-cbou", "-ww", "-rLL=200n", "-rHY=0", made / PAGE]
    done = subprocess.run(words, check=True, capture_output=True, text=True)
    assert done.stderr == ""
    return done.stdout


def test_page_has_each_help(made, helps):
    """Each paragraph of the help of each word, and each option with what it does, is in the page."""
    page = plain(rendered(made))
    for word, text in helps.items():
        about, usage, *_ = text.split("\n\n")
        assert plain(f"{word.upper()} {about}") in page
        for row in usage.removeprefix("Usage: ").split("\n"):
            assert plain(row.strip()) in page
        for row in re.findall(r"(?m)^ {2,6}(?:-\w, )?(--[\w-]+(?: \S+)*?) {2,}(\S.*)$", text):
            assert plain(" ".join(row)) in page, row
        for row in re.findall(r"(?m)^ {8,}(\S.*)$", text.partition("\nArguments:\n")[2].partition("\n\n")[0] + "\n"
                              + text.partition("\nOptions:\n")[2].partition("\n\n")[0]):
            assert plain(row) in page, row
        details = text.partition("\nOptions:\n")[2].partition("\n\n")[2]
        for row in filter(None, map(str.strip, details.split("\n"))):
            assert plain(row) in page, row


def test_signs_of_roff():
    """A row that begins like a request of roff is none, and signs that roff changes stay as they are."""
    assert manual.roff(".SH a\n\\b -c 'd'") == "\\&.SH a\n\\eb \\-c \\(aqd\\(aq"


def test_reference_is_that_of_the_program(program):
    """The chapter of the reference about the command line is made again from the help of the program, to the octet."""
    done = subprocess.run([sys.executable, TOP / "dist/manual.py", program, "--reference"], check=True, capture_output=True, text=True)
    assert done.stdout == read("docs/reference/command-line.md")


def test_reference_has_each_help(helps):
    """Each paragraph of the help of each word, and each option with what it does, is in the chapter."""
    text = plain(read("docs/reference/command-line.md")).replace("\\|", "|").replace("&lt;", "<")
    for word, found in helps.items():
        about, usage, *_ = found.split("\n\n")
        assert plain(f"## {word} {about}.") in text
        for row in usage.removeprefix("Usage: ").split("\n"):
            assert plain(row.strip()) in text
        details = found.partition("\nOptions:\n")[2]
        for row in filter(None, map(str.strip, details.partition("\n\n")[2].split("\n"))):
            assert plain(row) in text, row
        for names in re.findall(r"(?m)^ {2,6}(-.*?)(?: {2,}.*)?$", details.partition("\n\n")[0]):
            assert f"| `{names}` |" in text, names


def test_page_has_no_other_option(made, helps):
    shown = set(re.findall(r"(?m)^ +(?:-\w, )?(--[a-z-]+)(?: \S+)*$", rendered(made)))
    assert shown == {option for text in helps.values() for option in options_of(text) if len(option) > 2} | {"--version"}


def test_bash_completes_words(made, helps):
    assert complete(made, "rackd", "") == {*helps, "help", "-h", "--help", "-V", "--version"}
    assert complete(made, "rackd", "ju") == {"judge"}
    assert complete(made, "rackd", "help", "") == set(helps)


def test_bash_completes_options(made, helps):
    for word, text in helps.items():
        assert complete(made, "rackd", word, "-") == options_of(text), word
        # else files, which bash completes itself
        assert complete(made, "rackd", word, "") == set()
    assert complete(made, "rackd", "judge", "rack.toml", "--ma") == {"--master"}


def test_zsh_has_words_and_options(made, helps):
    rows = (made / COMPLETIONS["zsh"]).read_text(encoding="utf-8").split("\n")
    named = next(row for row in rows if row.startswith("words_of_rackd="))
    assert re.findall(r"'([a-z]+)':", named) == list(helps)
    for word, text in helps.items():
        row = next(row for row in rows if row.startswith(f"  {word}) "))
        assert set(re.findall(r"'(--?[A-Za-z-]+)\[", row)) == options_of(text)


def test_fish_has_words_and_options(made, helps):
    rows = (made / COMPLETIONS["fish"]).read_text(encoding="utf-8").split("\n")
    assert [row.split(" -a ")[1].split()[0] for row in rows if " -a " in row] == list(helps)
    for word, text in helps.items():
        named = [row.partition(f"from {word}' ")[2].partition(" -d ")[0] for row in rows if f"from {word}' " in row]
        found = {f"--{option}" for row in named for option in re.findall(r"-l (\S+)", row)}
        found |= {f"-{option}" for row in named for option in re.findall(r"-s (\S+)", row)}
        assert found == options_of(text)


def test_options_that_take_a_value(made):
    """A shell that knows this offers no options behind them."""
    fish = (made / COMPLETIONS["fish"]).read_text(encoding="utf-8")
    assert "from judge' -l master -r -d" in fish and "from judge' -l json -d" in fish
    assert "from serve' -l log -d" in fish
