"""A right program whose standard error passes through a wrong program that changes its rows (tests/wrong_programs)."""
import subprocess
import sys

from support.stand_ins import start_right, write_octets


def run_with_changed_errors(change):
    """Runs the right program to its end, writes each row of its standard error as a function changes it, and ends as it does."""
    with start_right(sys.argv[1:], stderr=subprocess.PIPE) as right:
        for row in right.stderr:
            write_octets(sys.stderr, change(row))
    sys.exit(right.returncode)
