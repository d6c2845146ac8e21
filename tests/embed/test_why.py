"""Why an entry has its outcome: the sentence of `rackd explain` and its facts, for each entry of each stored run and example."""
from pathlib import Path

import pytest
from rackd import EmbeddedRack, RackError
from rackd.reasons import NAMES
from support.embedded import EXAMPLES, RUNS, Player, ids, input_of
from support.reasons import WORDS, missing


@pytest.mark.parametrize("path", RUNS + EXAMPLES, ids=ids(RUNS + EXAMPLES))
def test_each_entry(path: Path, program, shared_library):
    rack_text, script = input_of(path)
    try:
        rack = EmbeddedRack(rack_text, library=shared_library, program=program)
    except RackError:
        pytest.skip("the rack is refused")
    with rack:
        Player(rack).play(script)
        for line in rack.lines:
            for entry in line.journal():
                reason = line.why(entry.place)
                assert reason.sentence == entry.sentence
                assert missing(reason) == []


def test_each_reason_has_its_words():
    assert set(WORDS) == set(NAMES) - {"unknown"}
