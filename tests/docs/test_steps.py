"""Each chapter of docs/guide is followed from top to bottom in a fresh copy of the repository, and so are the steps of README.md."""
import importlib.util
import os
import re
import shutil
import subprocess
import sys
import urllib.request
from pathlib import Path

import pytest

from support.followed_documents import Fault, Reader, Step, environment_without, free_ports, is_shown, of_commands, steps_of
from support.processes import PATIENCE
from support.repository import TOP, listed, read

# The ports of the documents, in whose place there are others that are free.
NAMED_PORTS = ("7101", "7102", "7201", "7202", "7300", "7401")
# Where ports of the copy are written beside the documents.
FILES_WITH_PORTS = ("examples/serve/rack.toml",)
# Steps that no test can follow, by how they begin.
LEFT_OUT = {"wireshark": "it needs a screen", "docker": "it needs an image from the network"}
# What steps need that may be missing, by how they begin: programs, or modules of Python.
NEEDED_PROGRAMS = {"tshark": "tshark", "cc ": "cc", "PYTHONPATH=python python3 -m rackd suite ./master": "cc"}
NEEDED_MODULES = {"python3 -m venv": ("ensurepip", "pip", "setuptools", "wheel"), ".venv/": ("ensurepip", "pip", "setuptools", "wheel")}
# What differs each time.
SECONDS = [(r"in [\d.]+s", "in some seconds")]
VARYING = {
    "PYTHONPATH=python python3 -m rackd suite": [(r"place \d+", "a place"), (r"\d+ times", "some times")],
    ".venv/bin/python -m pytest": SECONDS, "PYTHONPATH=python python3 -m pytest": SECONDS,
    "sleep 0.5; cat audit/line-1-1.times": [(r"(?m) \d{13}$", " MILLISECONDS")],
    "tshark": [(r"(?m)^Running as user .*\n", "")], "grep req": [(r"(?m)^\d+", "N")],
    "rackd explain examples/serve/rack.toml audit/line-1-1.*.audit": [
        (r"(?m)^ +\d+(?=  master)", "N"), (r"at [\d.]+ m?s", "at a time"), (r"entry \d+( on +)?", "an entry ")],
    "rackd judge examples/serve/rack.toml audit/line-1-1.*.audit": [(r"place \d+", "a place"), (r"legal \d+", "legal")],
}
# Steps that end with another status than 0.
STATUSES = {"rackd judge examples/serve/rack.toml examples/fcb-repeated.audit": 1,
            "rackd judge examples/serve/rack.toml audit/line-1-1.*.audit": 1,
            "PYTHONPATH=python python3 -m rackd suite --only watchdog-expiry": 1}
# The program that `./rackd` starts, and what it was built from.
MARK_PROGRAM = 'top=$PWD; . dist/built.sh; printf "program %s\\nsources %s\\n" "$(sum "$carried")" "$(sources)" >"$carried.built"'


def with_ports(text, ports):
    """Returns a text with other ports."""
    return re.sub(rf"\b({'|'.join(NAMED_PORTS)})\b", lambda found: str(ports[found[1]]), text)


def copy_repository(folder, program):
    """Copies the files of the repository, and has them carry the program under test."""
    for name in listed():
        path = folder / name
        path.parent.mkdir(parents=True, exist_ok=True)
        shutil.copy2(TOP / name, path)
    carried = folder / "dist/x86_64-linux/rackd"
    shutil.copy2(program, carried)
    assert os.spawnvp(os.P_WAIT, "env", ["env", "-C", str(folder), "bash", "-c", MARK_PROGRAM]) == 0


@pytest.fixture
def copied(program, tmp_path):
    """A fresh copy of the repository with free ports: its folder, and the ports by those of the documents."""
    folder = tmp_path / "rackd"
    copy_repository(folder, program)
    ports = dict(zip(NAMED_PORTS, free_ports(len(NAMED_PORTS))))
    for name in FILES_WITH_PORTS:
        (folder / name).write_text(with_ports(read(name), ports), encoding="utf-8")
    return folder, ports


@pytest.fixture
def read_in(tmp_path):
    """A function that makes a reader in a folder, who finds programs first in another folder."""
    readers = []

    def make(folder, path):
        (tmp_path / "steps").mkdir()
        environment = environment_without("RACKD", "PYTHONPATH", "PYTEST_ADDOPTS", "PYTEST_XDIST_WORKER", "PYTEST_CURRENT_TEST",
                                          path=path)
        readers.append(Reader(folder, tmp_path / "steps", environment, varying=VARYING, statuses=STATUSES, within=3 * PATIENCE))
        return readers[-1]

    yield make
    for reader in readers:
        reader.close()


def missing(step):
    """Returns why a step is left out; None if it can be followed."""
    reasons = of_commands(step, LEFT_OUT)
    reasons += [f"{name} is not installed" for name in of_commands(step, NEEDED_PROGRAMS) if shutil.which(name) is None]
    reasons += [f"{name} of Python is not installed" for names in of_commands(step, NEEDED_MODULES) for name in names
                if importlib.util.find_spec(name) is None]
    return reasons[0] if reasons else None


CHAPTERS = sorted(listed("docs/guide/*.md"))


def test_there_are_chapters():
    assert [Path(name).name[:2] for name in CHAPTERS] == [f"{number:02}" for number in range(1, len(CHAPTERS) + 1)]


@pytest.mark.slow
@pytest.mark.parametrize("name", CHAPTERS)
def test_chapter_is_right_from_top_to_bottom(name, copied, read_in):
    folder, ports = copied
    reader = read_in(folder, os.path.dirname(sys.executable))
    steps = list(steps_of(with_ports(read(name), ports)))
    reasons = [missing(step) for step in steps]
    for step, reason in zip(steps, reasons):
        if reason is None:
            reader.follow(step)
    assert reasons.count(None) > 0
    absent = [reason for reason in reasons if reason and reason not in LEFT_OUT.values()]
    if absent:
        pytest.skip(f"steps were left out: {'; '.join(absent)}")


# The part of README that is followed in an installation too; another one is about a checkout.
OF_AN_INSTALLATION = "The first two minutes"


def follow_readme(reader, text, port, is_installed=False):
    """Follows README. Its rack goes on for weeks, and has a page."""
    first, *others = steps_of(text)
    assert {"--endless", "--keep", "--part"} <= set(first.text.split())
    reader.follow(first)
    assert urllib.request.urlopen(f"http://127.0.0.1:{port}/", timeout=PATIENCE).status == 200
    followed = [step for step in others if missing(step) is None and (step.heading == OF_AN_INSTALLATION or not is_installed)]
    for step in followed:
        reader.follow(step)
    assert OF_AN_INSTALLATION in {step.heading for step in followed}


def test_readme_is_right(copied, read_in):
    folder, ports = copied
    follow_readme(read_in(folder, os.path.dirname(sys.executable)), with_ports(read("README.md"), ports), ports["7300"])


def test_readme_is_right_of_an_installation(copied, read_in, tmp_path):
    """Once it is installed, the steps are those of a checkout, with `rackd` for `./rackd`, where the examples are."""
    folder, ports = copied
    prefix = tmp_path / "prefix"
    subprocess.run([folder / "install", prefix], check=True, stdin=subprocess.DEVNULL, stdout=subprocess.DEVNULL, timeout=3 * PATIENCE)
    text = with_ports(read("README.md"), ports)
    assert "the commands below work in the folder `~/.local/share/rackd`" in text
    reader = read_in(prefix / "share/rackd", prefix / "bin")
    follow_readme(reader, text.replace("    ./rackd ", "    rackd "), ports["7300"], is_installed=True)


# ---- a wrong document is found

RIGHT = """
# Steps

In a second terminal:

    number=5
    echo "number $number"

    number 5

| Type | Comes back | |
|---|---|---|
| `echo " e5"` | `e5` | in the same terminal |
| `echo $number` | `5` | |

Save this as text.txt:

    one

    two

    three

Count its lines:

    grep -c . text.txt

It prints their number:

    3

## More

The second terminal still has its number, and another one hasn't.

    cat text.txt; echo "$number"

    one
    ..
    5

In the third terminal:

    cat text.txt; echo "none: [$number]"

    one

    two

    three
    none: []
"""
WRONG = [
    pytest.param("number 5\n", "number 6\n", 6, id="output"),
    pytest.param('$number"\n\n    number', '$number"; false\n\n    number', 6, id="status"),
    pytest.param("`e5` |", "`e6` |", 13, id="cell"),
    pytest.param("    one\n    ..\n    5", "    one\n    ..\n    6", 36, id="behind-dots"),
    pytest.param("    three\n    none", "    none", 44, id="missing-row"),
    pytest.param("In the third terminal", "In the second terminal", 44, id="terminal"),
    pytest.param("this as text.txt", "this as texts.txt", 26, id="saved-file"),
    pytest.param("    3\n", "    4\n", 30, id="printed"),
]


@pytest.fixture
def small_reader(tmp_path):
    """A reader in an empty folder."""
    reader = Reader(tmp_path, tmp_path, environment_without(path="/usr/bin"))
    yield reader
    reader.close()


def test_right_document(small_reader):
    steps = list(steps_of(RIGHT))
    assert [step.number for step in steps] == [6, 13, 14, 18, 26, 30, 36, 44]
    for step in steps:
        small_reader.follow(step)


@pytest.mark.parametrize("old, new, number", WRONG)
def test_wrong_document(small_reader, old, new, number):
    assert RIGHT.count(old) == 1
    with pytest.raises(Fault, match=f"line {number}: "):
        for step in steps_of(RIGHT.replace(old, new)):
            small_reader.follow(step)


@pytest.mark.parametrize("shown, found, is_same", [
    ("a\nb", "a\nb\n", True), ("a\nb", "a\n", False), ("a", "a\nb\n", False), ("..", "", True), ("a\n..\nb", "a\nb\n", True),
    ("a\n..\nb", "a\nx\ny\nb\n", True), ("a\n..", "b\nx\n", False), ("a ..", "a 1 2\n", True), ("a ..", "b 1 2\n", False),
    ("(a.b)", "(a.b)\n", True), ("(a.b)", "(axb)\n", False), ("a", "a  \n", True), (" a", "a\n", False),
])
def test_what_is_shown(shown, found, is_same):
    assert is_shown(shown, found) is is_same


def test_program_has_to_be_stopped(small_reader):
    """A rack that is started while another one runs is found, unless the text says to stop it."""
    small_reader.staying["rack"] = None
    with pytest.raises(Fault, match="doesn't say to stop the rack"):
        small_reader.follow(Step(1, "", "Start another one:", "./rackd serve rack.toml"))
    small_reader.staying.clear()
