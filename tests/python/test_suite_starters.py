"""Masters to begin with, in Python, C and Rust: each is built without a warning, and passes all scenarios of the suite.

So does the master in C of tests/oracle/masters, which shares no code with them.
"""
import os
import shutil
import subprocess
import sys

import pytest

from support.package_runs import TOP, run_python

# Seconds that a right master may take for a scenario and until it connects, and all scenarios together.
ENOUGH, ALL = 200, 900
SCENARIOS = sorted(path.stem for path in (TOP / "examples/suite").glob("*.py"))
# The source of each language, its compiler, and the words of the compiler.
COMPILED = {
    "c": ("examples/suite/master.c", "cc", ["-std=c11", "-O2", "-Wall", "-Wextra", "-Wconversion", "-pedantic", "-Werror"]),
    "rust": ("examples/suite/master.rs", "rustc", ["--edition", "2021", "-O", "-D", "warnings"]),
    "independent": ("tests/oracle/masters/master.c", "cc", ["-O2", "-Wall", "-Werror"]),
}


def starter(language, folder):
    """Returns the words that run the master of a language. It is built in a folder."""
    if language == "python":
        return [sys.executable, TOP / "examples/suite-master.py"]
    name, compiler, options = COMPILED[language]
    if shutil.which(compiler) is None:
        pytest.skip(f"{compiler} is not installed")
    program, source = folder / "master", TOP / name
    done = subprocess.run([compiler, *options, "-o", program, source], check=False, capture_output=True, text=True)
    assert (done.returncode, done.stdout, done.stderr) == (0, "", "")
    return [program]


def suite(folder, language, *words):
    options = ["--timeout", ENOUGH, "--connect", ENOUGH, *words]
    return run_python(folder, "-m", "rackd", "suite", *options, *starter(language, folder), within=ALL)


@pytest.mark.parametrize("language", ["python", *COMPILED])
def test_one_scenario(tmp_path, language):
    done = suite(tmp_path, language, "--only", "bring-up")
    assert done == (0, "passed  bring-up\n1 passed, 0 failed\n", "")


@pytest.mark.slow
@pytest.mark.parametrize("language", ["python", *COMPILED])
def test_all_scenarios(tmp_path, language):
    done = suite(tmp_path, language)
    rows = [f"passed  {name}\n" for name in SCENARIOS]
    assert done == (0, "".join(rows) + f"{len(SCENARIOS)} passed, 0 failed\n", "")


@pytest.mark.parametrize("language", COMPILED)
def test_variables_that_are_missing(tmp_path, language):
    """A compiled master names a variable that is missing, and ends."""
    keys = {"IDENT": "32929", "CFG": "2111", "USER": "", "OUTPUTS": "1234", "WATCHDOG_MS": "0"}
    flags = dict.fromkeys(("GROUP", "SYNC", "FREEZE", "FAILSAFE", "MIRROR"), "0")
    variables = {"RACKD_PORT": "1", "RACKD_ADDRESS": "1", "RACKD_CLEAR": "0", "RACKD_SLAVE_ADDRESSES": "5",
                 **{f"RACKD_SLAVE_5_{key}": value for key, value in {**keys, **flags}.items()}}
    others = {key: value for key, value in os.environ.items() if not key.startswith("RACKD_")}
    command = starter(language, tmp_path)
    for name in variables:
        given = {key: value for key, value in variables.items() if key != name}
        done = subprocess.run(command, env={**others, **given}, check=False, capture_output=True, text=True)
        assert done.returncode in (1, 2) and name in done.stderr, done
