#!/usr/bin/env python3
"""Runs the tests with wrong programs, which they must find.

usage: tests/mutants.py [NAME..]

Each file of tests/wrong_programs stands in for the program and does one thing wrong. Its rows `Fails: TEST` name tests, as
pytest does; each of them has to fail with it, at least one case of a test that is named without its case. Without names
all wrong programs are tried, several at one time. The right program is the one that RACKD names, or that of this tree. pytest
has to be there for the Python that runs this. The last line is 'N passed, M failed'.
"""
import concurrent.futures
import os
import re
import subprocess
import sys
import tempfile
from pathlib import Path

TESTS = Path(__file__).resolve().parent
TOP = TESTS.parent
FOLDER = TESTS / "wrong_programs"
# Seconds that the tests of one wrong program may take.
LIMIT = 900


def right_program():
    """Returns the path of the right program."""
    if "RACKD" in os.environ:
        return os.path.abspath(os.environ["RACKD"])
    script = f'top={TOP}; . "$top/dist/built.sh"; built_program'
    return subprocess.run(["bash", "-c", script], check=True, capture_output=True, text=True).stdout.strip()


def named_tests(wrong):
    """Returns the tests that have to fail with a wrong program."""
    return re.findall(r"^#?\s*Fails: (\S.*?)\s*$", wrong.read_text(encoding="utf-8"), re.MULTILINE)


def outcomes_with(wrong, right, tests):
    """Runs tests with a wrong program. Returns the outcome of each test that ran."""
    with tempfile.TemporaryDirectory(prefix="wrong-") as folder:
        path = Path(folder, "outcomes")
        environment = {**os.environ, "RACKD": str(wrong), "RACKD_RIGHT": right, "PYTHONDONTWRITEBYTECODE": "1"}
        command = [sys.executable, "-m", "pytest", "-q", "-m", "", "-p", "no:cacheprovider", f"--outcomes={path}", *tests]
        done = subprocess.run(command, cwd=TOP, env=environment, capture_output=True, text=True, timeout=LIMIT, check=False)
        if not path.exists():
            return {}, done.stdout + done.stderr
        rows = path.read_text(encoding="utf-8").splitlines()
    return {test: outcome for outcome, _, test in (row.partition(" ") for row in rows)}, ""


def is_case_of(found, named):
    """Returns whether a test that ran is the one that is named, or a case of it."""
    return found == named or found.startswith(f"{named}[") or found.startswith(f"{named}::")


def try_program(wrong, right):
    """Returns a row for each test that a wrong program names, and whether it fails."""
    tests = named_tests(wrong)
    if not tests:
        return [(False, f"{wrong.name} names no test")]
    try:
        outcomes, trouble = outcomes_with(wrong, right, tests)
    except subprocess.TimeoutExpired:
        return [(False, f"{wrong.name}: its tests take more than {LIMIT} seconds")]
    results = []
    for test in tests:
        found = [outcome for name, outcome in outcomes.items() if is_case_of(name, test)]
        if "failed" in found:
            results.append((True, f"{wrong.name}: {test} fails"))
        else:
            what = " and ".join(sorted(set(found))) or "did not run"
            results.append((False, f"{wrong.name}: {test} has to fail, but {what}{trouble[-2000:]}"))
    return results


def main():
    right = right_program()
    wanted = sys.argv[1:]
    programs = [path for path in sorted(FOLDER.iterdir()) if not wanted or path.name in wanted]
    passed = failed = 0
    with concurrent.futures.ThreadPoolExecutor(os.cpu_count()) as pool:
        for results in pool.map(lambda wrong: try_program(wrong, right), programs):
            for is_found, row in results:
                print(f"{'ok' if is_found else 'FAILED'} {row}", flush=True)
                passed, failed = passed + is_found, failed + (not is_found)
    if not programs or len(programs) < len(wanted):
        print("FAILED there is no such wrong program")
        failed += 1
    print(f"{passed} passed, {failed} failed")
    return 1 if failed else 0


if __name__ == "__main__":
    sys.exit(main())
