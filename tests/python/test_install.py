"""Installations of the package by pip, in a virtual environment: the checkout stays as it was, and the program comes along.

The checkout is a small copy, whose carried program is the program under test.
"""
import importlib.util
import os
import shutil
import sys
from pathlib import Path

import pytest

from support.package_runs import PACKAGE, TOP, environment
from support.processes import run_program
from support.suite_runs import EXCHANGES, GOES_ON, LONG, MASTER, PASSED

EXAMPLES = Path(__file__).resolve().parents[2] / "examples"
NEEDED = ("pip", "setuptools", "wheel", "pytest")
# Writes the names of those of these modules that there are not.
LIST_MISSING = f"import importlib.util as util; print(*[name for name in {NEEDED} if util.find_spec(name) is None])"
# Writes where packages are installed, and after an installation where the package and the program are.
PACKAGES = "import sysconfig; print(sysconfig.get_path('purelib'))"
FOUND = "import rackd; from rackd.program import find_program; print(rackd.__file__, find_program())"
# Tests that use the fixtures. The second one fails, and its report has to have what the plugin knows, once.
TESTS = """
def test_rack(rack):
    assert rack.line(1).operator().owned(1) == []

def test_that_fails(rack):
    assert rack.lines == []
"""


class Installation:
    """A checkout, a virtual environment, a folder for temporary files, and a folder elsewhere in which programs run."""

    def __init__(self, folder, program):
        self.checkout, self.elsewhere, self.temporary, self.home = (folder / name for name in (
            "checkout", "elsewhere", "temporary", "home"))
        self.program = self.checkout / "dist/x86_64-linux/rackd"
        self.python = folder / "environment/bin/python"
        for path in self.program.parent, self.elsewhere, self.temporary, self.home:
            path.mkdir(parents=True)
        shutil.copytree(PACKAGE, self.checkout / "python", ignore=shutil.ignore_patterns("__pycache__"))
        shutil.copytree(EXAMPLES / "suite", self.checkout / "examples/suite", ignore=shutil.ignore_patterns("__pycache__"))
        shutil.copy(program, self.program)

    def run(self, *words, within=LONG, **variables):
        """Runs Python of the environment elsewhere. No variable names the program or the package."""
        own = {name: value for name, value in environment(self.temporary).items() if name not in ("RACKD", "PYTHONPATH")}
        return run_program([self.python, *words], cwd=self.elsewhere, env={**own, **variables}, within=within)

    def make_environment(self):
        """Makes the environment. The test is skipped if something is missing that an installation needs."""
        if importlib.util.find_spec("venv") is None:
            pytest.skip("venv is not installed")
        # pip of the system will do, and takes less time than another one
        options = ["--without-pip"] if importlib.util.find_spec("pip") else []
        made = run_program([sys.executable, "-m", "venv", "--system-site-packages", *options, self.python.parent.parent])
        if made.status:
            pytest.skip(f"venv with ensurepip is not installed: {made.output}{made.errors}")
        missing = self.run("-c", LIST_MISSING).output.split()
        if missing:
            pytest.skip(f"{' and '.join(missing)}: not installed")
        self.packages = Path(self.run("-c", PACKAGES).output.strip())

    def install(self, *options):
        """Installs the package of the checkout without a network. All that Python may write by that is written."""
        words = ["-m", "pip", "--isolated", "--no-cache-dir", "install", "--no-index", "--no-build-isolation", *options]
        return self.run(*words, self.checkout / "python", PYTHONDONTWRITEBYTECODE="", HOME=str(self.home))


@pytest.fixture
def installation(tmp_path, program):
    """A checkout and an environment without the package."""
    made = Installation(tmp_path, program)
    made.make_environment()
    return made


def contents(folder):
    """Returns the modes of all files and folders in a folder, and the octets of the files."""
    return {str(path.relative_to(folder)): (path.stat().st_mode, path.read_bytes() if path.is_file() else None)
            for path in folder.rglob("*")}


def install(installation, *options):
    """Installs the package. The checkout is as it was, and nothing is left in the folder for temporary files."""
    before = contents(installation.checkout)
    done = installation.install(*options)
    assert done.status == 0, done.output + done.errors
    assert contents(installation.checkout) == before
    assert list(installation.temporary.iterdir()) == []


def check_tests_elsewhere(installation, *options, **variables):
    """Runs tests elsewhere: they have the fixtures, and the report of the one that fails has what the plugin knows, once."""
    (installation.elsewhere / "test_it.py").write_text(TESTS, encoding="utf-8")
    done = installation.run("-m", "pytest", "-p", "no:cacheprovider", *options, **variables)
    assert "= 1 failed, 1 passed in " in done.output, done.output + done.errors
    assert done.output.count("- explain --faults, line 1 -") == 1
    assert done.output.count("- log of rackd -") == 1


def check_suite_elsewhere(installation):
    """Runs a suite of one scenario elsewhere."""
    scenarios, master = installation.elsewhere / "scenarios", installation.elsewhere / "master.py"
    scenarios.mkdir()
    (scenarios / "one.py").write_text(EXCHANGES, encoding="utf-8")
    master.write_text(MASTER + GOES_ON, encoding="utf-8")
    assert installation.run("-m", "rackd", "suite", "--folder", scenarios, installation.python, master) == (0, PASSED, "")


def check_carried_scenarios(installation):
    """The suite has the scenarios of the repository, also elsewhere, and runs one of them."""
    names = [row.split()[0] for row in installation.run("-m", "rackd", "suite", "--list").output.splitlines()]
    assert names == sorted(path.stem for path in (EXAMPLES / "suite").glob("*.py"))
    words = ["-m", "rackd", "suite", "--only", "bring-up", installation.python, EXAMPLES / "suite-master.py"]
    done = installation.run(*words)
    assert (done.status, done.output.splitlines()[-1]) == (0, "1 passed, 0 failed"), done


def test_wheel(installation):
    install(installation)
    package = installation.packages / "rackd"
    program = package / "program/rackd"
    assert program.read_bytes() == installation.program.read_bytes()
    assert os.access(program, os.X_OK)
    shutil.rmtree(installation.checkout)
    assert installation.run("-c", FOUND) == (0, f"{package / '__init__.py'} {program}\n", "")
    check_suite_elsewhere(installation)
    check_carried_scenarios(installation)
    check_tests_elsewhere(installation)
    check_tests_elsewhere(installation, "-p", "rackd.pytest_plugin")
    check_tests_elsewhere(installation, "-p", "rackd.pytest_plugin", PYTHONPATH=str(package.parent))


def test_editable(installation):
    install(installation, "--editable")
    package = installation.checkout / "python/rackd"
    assert installation.run("-c", FOUND) == (0, f"{package / '__init__.py'} {installation.program}\n", "")
    assert not (installation.packages / "rackd").exists()
    check_suite_elsewhere(installation)
    check_carried_scenarios(installation)
    check_tests_elsewhere(installation)
    check_tests_elsewhere(installation, "-p", "rackd.pytest_plugin", PYTHONPATH=str(package.parent))
    # what changes in the checkout is in force
    with open(package / "__init__.py", "a", encoding="utf-8") as file:
        file.write("CHANGED = True\n")
    assert installation.run("-c", "import rackd; print(rackd.CHANGED)") == (0, "True\n", "")
