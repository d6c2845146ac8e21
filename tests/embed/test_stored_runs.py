"""Each stored run and each example that is played on a rack in process gives what the program gives."""
from pathlib import Path

import pytest
from rackd import EmbeddedRack, RackError
from support.embedded import EXAMPLES, RUNS, Player, ids, input_of


def played(rack_text, script, shared_library):
    """Returns what a script writes, and the number of the line at which it stops."""
    with EmbeddedRack(rack_text, library=shared_library) as rack:
        return Player(rack).play(script)


@pytest.mark.parametrize("path", RUNS, ids=ids(RUNS))
def test_stored_run(path: Path, run, shared_library):
    rack = path.parent / "rack.toml"
    try:
        text, stopped = played(*input_of(path), shared_library)
    except RackError:
        pytest.skip("the rack is refused")
    done = run("run", str(rack), str(path))
    assert text == done.output
    assert stopped is None or f"line {stopped}" in done.errors
    assert (stopped is None) == (done.status == 0)


@pytest.mark.parametrize("path", EXAMPLES, ids=ids(EXAMPLES))
def test_example(path: Path, shared_library):
    assert played(*input_of(path), shared_library) == (path.with_suffix(".out").read_text(encoding="utf-8"), None)
