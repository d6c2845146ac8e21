"""A server that is killed at any moment leaves what each client was answered, in legal texts."""
import random
import time

import pytest

from support.audit_texts import text_name, whole_rows
from support.clients import wait_for
from support.loads import ExchangeLoad, InputLoad, finish, start
from support.racks import usual_rack
from support.watched_writes import WatchedWrites

# The replies that all clients have got together before a kill, at the least and at the most; seconds after that.
FEWEST, MOST, LATEST = 4, 2000, 0.005
# Seconds that each write is held up.
HOLD = 0.001


def kill_under_load(server, seed):
    """Kills a server at a moment that this seed has, while two masters use line 1, and one and an operator line 2.

    Returns the loads of both lines.
    """
    loads = {1: [ExchangeLoad(server, 1, 5, 6), ExchangeLoad(server, 2, 6, 5)],
             2: [ExchangeLoad(server, 3, 7, 5, line=2), InputLoad(server, 2)]}
    all_loads, chance = loads[1] + loads[2], random.Random(seed)
    replies = chance.randint(FEWEST, MOST)
    start(all_loads)
    wait_for(lambda: sum(load.replies for load in all_loads) >= replies, every=0)
    time.sleep(chance.uniform(0, LATEST))
    server.kill()
    finish(all_loads)
    return loads


@pytest.mark.parametrize("seeds, delay", [
    *((range(first, first + 10), None) for first in range(0, 50, 10)), (range(50, 60), HOLD),
], ids=[*(f"seeds-{first}-to-{first + 9}" for first in range(0, 50, 10)), "held-up-writes"])
def test_what_was_answered_is_in_the_file(serve, tmp_path, assert_legal_text, seeds, delay):
    for seed in seeds:
        folder = tmp_path / f"audit-{seed}"
        watch = None if delay is None else WatchedWrites(delay)
        server = serve(usual_rack(1, 2), "--audit", folder, before=None if watch is None else watch.ask)
        for number, loads in kill_under_load(server, seed).items():
            text = whole_rows((folder / text_name(number)).read_bytes())
            for load in loads:
                load.assert_kept(text)
            assert_legal_text(server.rack, text)
