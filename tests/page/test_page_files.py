"""The files of the page as texts: their limits, and that the sources of the program have them."""
import re
import subprocess
import sys

import pytest

# The most lines of the script, of one of its functions, and the longest line of a page file.
MOST_LINES, MOST_OF_A_FUNCTION, LONGEST_LINE = 1040, 40, 120
NAMES = ("page.html", "page.css", "page.js")
# Words that would read text as HTML or as a script, or that the policy of the page refuses.
FORBIDDEN = ("innerHTML", "outerHTML", "insertAdjacentHTML", "document.write", "eval(", "new Function", "DOMParser",
             'setAttribute("style"', " style=", "javascript:", "http://", "https://", '"##', "\r")


@pytest.fixture
def text_of(page_files):
    """A function that returns the text of a file of the page, with its line ends as they are."""
    return lambda name: (page_files / name).read_bytes().decode("utf-8")


def test_sources_have_the_files(top):
    done = subprocess.run([sys.executable, top / "crates" / "watch_page" / "page" / "embed.py", "--check"], check=False,
                          stdin=subprocess.DEVNULL, capture_output=True, text=True)
    assert (done.stdout, done.stderr) == ("ok page.html\nok page.css\nok page.js\n3 passed, 0 failed\n", "")
    assert done.returncode == 0


@pytest.mark.parametrize("name", NAMES)
def test_forbidden_words(text_of, name):
    assert [word for word in FORBIDDEN if word in text_of(name)] == []


@pytest.mark.parametrize("name", NAMES)
def test_long_lines(text_of, name):
    assert [number for number, line in enumerate(text_of(name).split("\n"), 1) if len(line) > LONGEST_LINE] == []


def test_script_is_strict_and_short(text_of):
    script = text_of("page.js")
    assert script.startswith('"use strict";')
    assert script.count("\n") <= MOST_LINES


def test_functions_of_the_script_are_short(text_of):
    found = list(re.finditer(r"^(?:async )?function (\w+).*?^}$", text_of("page.js"), re.MULTILINE | re.DOTALL))
    assert len(found) > 20
    assert [each[1] for each in found if each[0].count("\n") >= MOST_OF_A_FUNCTION] == []
