"""The examples in C, and those in other languages whose compiler is installed."""
import os
import shutil
import subprocess

from support.embedded import find
from support.repository import TOP

EXAMPLES = TOP / "examples" / "embed"


def test_c(build):
    done = subprocess.run([build(EXAMPLES / "diagnosis.c", "-std=c99", "-pedantic")], check=False, capture_output=True, text=True)
    assert (done.returncode, done.stdout) == (0, (EXAMPLES / "diagnosis.out").read_text(encoding="utf-8"))


def test_rust(library_folder, tmp_path):
    program = tmp_path / "rack"
    words = [find("rustc"), "--edition", "2021", "--test", "-L", library_folder, "-o", str(program), str(EXAMPLES / "rackd.rs")]
    done = subprocess.run(words, check=False, capture_output=True, text=True)
    assert done.returncode == 0, done.stderr
    done = subprocess.run([program], check=False, capture_output=True, text=True)
    assert done.returncode == 0, done.stdout


def test_go(library_folder, tmp_path):
    """The tests of the package. It is compiled with the libraries of the folder, which come before the carried ones."""
    folder = tmp_path / "examples" / "embed" / "go"
    shutil.copytree(EXAMPLES / "go", folder)
    (tmp_path / "include").symlink_to(TOP / "include")
    (tmp_path / "dist").mkdir()
    (tmp_path / "dist" / "x86_64-linux").symlink_to(library_folder)
    environment = {**os.environ, "GOCACHE": str(tmp_path / "cache"), "GOFLAGS": "-mod=mod", "CGO_ENABLED": "1"}
    done = subprocess.run([find("go"), "test", "./..."], check=False, capture_output=True, text=True, cwd=folder, env=environment)
    assert done.returncode == 0, done.stdout + done.stderr
