"""rackd.built has the sums of the program and of the libraries, each of which can be noted without the other."""
import os
import subprocess

import pytest
from support.repository import TOP

PROGRAM = """\
mkdir -p "$libraries"
echo program >"$carried"; chmod +x "$carried"
echo archive >"$libraries/librackd.a"
echo shared >"$libraries/librackd.so"
mark "$carried" one
mark_libraries two
"""


@pytest.fixture
def after(tmp_path):
    """A function that runs shell lines behind those that note a program and its libraries, and returns what they write."""
    kit = tmp_path / "bin"
    kit.mkdir()
    (kit / "rt").write_text("#!/usr/bin/env bash\necho a kit\n", encoding="utf-8")
    (kit / "rt").chmod(0o755)

    def call(lines):
        script = f'set -u; top={tmp_path}; . "{TOP}/dist/built.sh"\n{PROGRAM}{lines}\n'
        done = subprocess.run(["bash", "-c", script], check=False, capture_output=True, text=True,
                              env={**os.environ, "PATH": f"{kit}:{os.environ['PATH']}"})
        assert done.stderr == ""
        return done.stdout

    return call


BOTH = 'is_built "$carried" one && echo program; are_built two && echo libraries; library_toolchain'


@pytest.mark.parametrize("lines, noted", [
    ("", "program\nlibraries\na kit\n"),
    ('mark "$carried" three', "libraries\na kit\n"),
    ('mark "$carried" one', "program\nlibraries\na kit\n"),
    ("mark_libraries three", "program\na kit\n"),
    ('echo other >"$libraries/librackd.a"', "program\na kit\n"),
    ('echo other >"$libraries/librackd.so"', "program\na kit\n"),
    ('echo other >"$carried"', "libraries\na kit\n"),
    ('rm "$carried.built"', ""),
])
def test_what_is_noted(after, lines, noted):
    assert after(f"{lines}\n{BOTH}") == noted
