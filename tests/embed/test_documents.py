"""The programs of README.md and docs/guide/10-inside-a-program.md: they are compiled by the command that the document has, and print what it says."""
import re
import subprocess

import pytest
from support.embedded import find
from support.repository import TOP, read

# a block of code in a document
BLOCK = re.compile(r"(?:^    .*\n|^\n(?=    ))+", re.MULTILINE)


def blocks_behind(document, heading):
    """Returns the blocks of code of a section of a document."""
    section = read(document).split(f"\n## {heading}\n")[1].split("\n## ")[0]
    return [re.sub(r"^    ", "", block, flags=re.MULTILINE).strip("\n") + "\n" for block in BLOCK.findall(section)]


@pytest.mark.parametrize("document, heading, name", [("README.md", "Inside a C program", "first"),
                                                     ("docs/guide/10-inside-a-program.md", "A program in C", "why")])
def test_program_of_a_document(document, heading, name, library_folder, tmp_path):
    """The command is run in a folder with links to what it names."""
    find("cc")
    program, command, *output = blocks_behind(document, heading)
    (tmp_path / f"{name}.c").write_text(program, encoding="utf-8")
    (tmp_path / "include").symlink_to(TOP / "include")
    (tmp_path / "dist").mkdir()
    (tmp_path / "dist" / "x86_64-linux").symlink_to(library_folder)
    done = subprocess.run(command, shell=True, check=False, capture_output=True, text=True, cwd=tmp_path)
    assert (done.returncode, done.stderr) == (0, "")
    if output:
        assert done.stdout == output[0]
    else:
        assert f"It prints `{done.stdout}`" in read(document)


def test_the_first_program_has_ten_lines():
    program, *_ = blocks_behind("README.md", "Inside a C program")
    assert program.count("\n") == 10
