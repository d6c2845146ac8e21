"""Fixtures of the tests of `rackd explain`."""
import pytest

from support.followed_texts import Followed


@pytest.fixture
def follow(program, tmp_path):
    """A function that starts `rackd explain --follow` on a rack, with options, in a folder of its own.

    See `support.followed_texts.Followed` for its parameters. The processes are killed after the test.
    """
    started = []

    def start(rack, *options, **named):
        started.append(Followed(program, tmp_path / f"followed-{len(started) + 1}", rack, *options, **named))
        return started[-1]

    yield start
    for followed in started:
        followed.kill()
