"""Who is answered finds the row of the answer, and all rows before it, in the file of the line at once."""
from pathlib import Path

import pytest

from audit.dialogue import DIALOGUE, Speakers, texts_of
from support.audit_texts import text_name, whole_rows
from support.clients import wait_for
from support.loads import ExchangeLoad, finish, start
from support.racks import usual_rack
from support.watched_writes import WatchedWrites, path_of

# Seconds that a write is held up.
HOLD = 0.02


class CheckedWrites(WatchedWrites):
    """Holds up each write, and notes the texts that don't end with a whole row when the next write is asked for."""

    def __init__(self, delay):
        self.cut = []
        super().__init__(delay)

    def asked(self, question):
        path = path_of(question.thread, question.words[0])
        if path.endswith(".audit"):
            text = Path(path).read_bytes()
            if text != whole_rows(text):
                self.cut.append(text[-100:])
        super().asked(question)


def watch_of(delay):
    """Returns the options of a server whose writes are held up for so long; none for None."""
    return {} if delay is None else {"before": WatchedWrites(delay).ask}


@pytest.mark.parametrize("delay", [None, HOLD], ids=["quick", "held-up-writes"])
def test_each_step_of_a_dialogue(serve, tmp_path, delay):
    """The row of what gets no answer comes all the same."""
    server = serve(usual_rack(), "--audit", tmp_path / "audit", **watch_of(delay))
    speakers, path = Speakers(server), tmp_path / "audit" / text_name(1)
    for step, text in zip(DIALOGUE, texts_of(1, DIALOGUE)):
        speakers.take(step)
        if not step.answer:
            wait_for(lambda: len(path.read_bytes()) >= len(text))
        assert path.read_bytes() == text, f"the file after {step.says}"


@pytest.mark.parametrize("rounds, delay", [(150, None), (20, HOLD)], ids=["quick", "held-up-writes"])
def test_two_masters_side_by_side(serve, tmp_path, assert_legal_text, rounds, delay):
    """Two masters of one line read the file after each of their replies. Each write is one whole row."""
    watch = None if delay is None else CheckedWrites(delay)
    server = serve(usual_rack(), "--audit", tmp_path / "audit", before=None if watch is None else watch.ask)
    path = tmp_path / "audit" / text_name(1)

    def look(load):
        load.assert_kept(whole_rows(path.read_bytes()))

    loads = [ExchangeLoad(server, *pair, rounds=rounds, look=look) for pair in ((1, 5, 6), (2, 6, 5))]
    start(loads)
    finish(loads)
    assert [load.replies for load in loads] == [rounds, rounds]
    assert_legal_text(server.rack, path.read_bytes())
    if watch is not None:
        assert watch.writes == path.read_bytes().count(b"\n")
        assert watch.cut == []
