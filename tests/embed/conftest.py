"""The libraries of a rack in process, and compilers for programs that use them."""
import os
import subprocess

import pytest

from support.embedded import find
from support.repository import TOP

CARRIED = TOP / "dist" / "x86_64-linux"


@pytest.fixture(scope="session")
def library_folder():
    """The folder with librackd.a and librackd.so: that of the variable RACKD_LIBRARIES, or the one that is carried."""
    folder = os.environ.get("RACKD_LIBRARIES", str(CARRIED))
    if not os.path.exists(f"{folder}/librackd.a"):
        pytest.skip("there is no librackd.a: dist/library.sh makes it")
    return folder


@pytest.fixture(scope="session")
def shared_library(library_folder):
    """The path of librackd.so."""
    return f"{library_folder}/librackd.so"


@pytest.fixture(scope="session")
def build(library_folder, tmp_path_factory):
    """A function that compiles a C file with the archive, by a compiler with further words, and returns the program."""
    folder = tmp_path_factory.mktemp("embed")

    def call(source, *words, compiler="cc", name=None):
        program = folder / (name or os.path.basename(source).replace(".", "-"))
        words = [find(compiler), "-g", "-O1", "-Wall", "-Werror", "-I", str(TOP / "include"), *words, str(source),
                 f"{library_folder}/librackd.a", "-o", str(program)]
        done = subprocess.run(words, check=False, capture_output=True, text=True)
        assert done.returncode == 0, done.stderr
        return program

    return call
