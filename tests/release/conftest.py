"""Fixtures of the tests of a release, of its installation, and of what is made from the help."""
import shutil
import subprocess
import sys
import tarfile

import pytest

from support.processes import run_program
from support.releases import make_release
from support.repository import TOP


@pytest.fixture(scope="session")
def archive(tmp_path_factory, program):
    """The archive of a release with the program under test."""
    return make_release(tmp_path_factory.mktemp("release"), program)


@pytest.fixture(scope="session")
def unpacked(archive, tmp_path_factory):
    """The folder of the archive, unpacked."""
    folder = tmp_path_factory.mktemp("unpacked")
    with tarfile.open(archive) as files:
        files.extractall(folder)
    return next(folder.iterdir())


@pytest.fixture(scope="session")
def tree(program, tmp_path_factory):
    """A folder as that of the archive, but without a wheel."""
    folder = tmp_path_factory.mktemp("tree")
    done = run_program([sys.executable, TOP / "dist/release", "--program", program, "--tree", folder])
    assert done == (0, "", "")
    shutil.copy(TOP / "install", folder)
    return folder


@pytest.fixture(scope="session")
def made(tmp_path_factory, program):
    """A folder with what dist/manual.py makes from the help of the program under test."""
    folder = tmp_path_factory.mktemp("made")
    subprocess.run([sys.executable, TOP / "dist/manual.py", program, folder], check=True)
    return folder
