"""Running a program to its end."""
import subprocess
from typing import NamedTuple

# Seconds that anything is waited for which must come, also on a machine that is busy.
PATIENCE = 600


class Done(NamedTuple):
    """How a program ended: its status, and what it wrote to standard output and standard error."""

    status: int
    output: str
    errors: str


def run_program(words, *, input="", cwd=None, env=None, within=PATIENCE, **options) -> Done:
    """Runs a program with these words on this input to its end."""
    octets = input if isinstance(input, bytes) else input.encode()
    done = subprocess.run([str(word) for word in words], input=octets, capture_output=True, timeout=within, cwd=cwd, env=env,
                          check=False, **options)
    return Done(done.returncode, done.stdout.decode(errors="backslashreplace"), done.stderr.decode(errors="backslashreplace"))
