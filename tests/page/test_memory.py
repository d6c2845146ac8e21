"""A long text: it is followed to its end, and memory does not grow with it."""
import os
from pathlib import Path

import pytest

from support.audit_texts import part_name
from support.clients import wait_for
from support.watching import ENDLESS_HEADER, count, ticks

# Entries of a third of a long text, answers after each third, and the octets by which memory may grow from the first third on.
THIRD, ANSWERS, GROWTH = 66_666, 200, 1_000_000
# Seconds in which a third is followed, also on a machine that is busy.
PATIENCE = 600


def resident(pid):
    """Returns the octets of memory that a process has."""
    return int(Path(f"/proc/{pid}/statm").read_text(encoding="ascii").split()[1]) * os.sysconf("SC_PAGE_SIZE")


@pytest.mark.slow
def test_memory_does_not_grow_with_the_text(watch, endless_rack, audit):
    watched, held = watch(endless_rack, audit.path), []
    audit.write(part_name(1), ENDLESS_HEADER)
    for first in range(1, 3 * THIRD, THIRD):
        audit.write(part_name(1), ticks(first, THIRD))
        last = first + THIRD - 1
        wait_for(lambda last=last: count(watched.line()) == last, within=PATIENCE, every=0.1)
        # each thread that serves connections has its memory after these
        for _ in range(ANSWERS):
            assert count(watched.line()) == last
        held.append(resident(watched.pid))
    assert len(held) == 3
    assert max(held) - held[0] <= GROWTH
