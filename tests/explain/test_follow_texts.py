"""`rackd explain --follow` on all stored texts: piece by piece it writes what the stored explanations have."""
import random

import pytest

from support.explanations import (entries_of, first_blocks, name_of, read, rows_of, stored_audits, stored_cases, verdict_of,
                                  whole_explanation)
from support.followed_texts import let_read

# Pieces that a text is written in, each only when the one before it has been read.
PIECES = 3
# Entries of a long text, and the octets by which memory may grow from its first third to its end.
LONG, GROWTH = 120_000, 300_000
LONG_RACK = """\
[[line]]
number = 1
capacity = 2
masters = [1]
[[line.slave]]
address = 5
ident = 1
cfg = "2111"
"""


def is_followed(explained, audit):
    """Returns whether a text is one to follow: its rows are whole, and its rack is accepted."""
    return explained != "" and read(audit).endswith("\n")


FOLLOWED_TEXTS = [audit for audit in stored_audits() if is_followed(whole_explanation(audit), audit)]
# What a line of JSON begins with, before its kind; the lines of a summary are not written while a text is followed.
FRONT = '{"version":2,"kind":'
FOLLOWED_LINES = [case for case in stored_cases() if "--json" in case.options and is_followed(case.expected, case.audit)]
FOLDERS = sorted({audit.parent.name for audit in FOLLOWED_TEXTS})


def pieces_of(name, text):
    """Returns the pieces of a text: it is cut at places that its name chooses."""
    cuts = sorted(random.Random(name).sample(range(1, len(text)), min(PIECES, len(text)) - 1))
    return [text[first:last] for first, last in zip([0, *cuts], [*cuts, len(text)])]


def write_pieces(several, pieces, check):
    """Writes pieces to each of several texts side by side, and checks each text when it has been read so far."""
    written = dict.fromkeys(several, "")
    for turn in range(PIECES):
        for name, followed in several.items():
            written[name] += pieces[name][turn]
            followed.write(pieces[name][turn])
        let_read(*several.values())
        for name, followed in several.items():
            check(name, followed, written[name])


@pytest.mark.parametrize("folder", FOLDERS)
def test_texts(follow, folder):
    """Each text, in pieces, is explained up to its last whole row, and ends as it does when it is whole."""
    audits = {name_of(audit): audit for audit in FOLLOWED_TEXTS if audit.parent.name == folder}
    explained = {name: whole_explanation(audit) for name, audit in audits.items()}
    pieces = {name: pieces_of(name, read(audit)) for name, audit in audits.items()}

    def check(name, followed, written):
        entries, verdict = entries_of(explained[name]), verdict_of(explained[name])
        rows = written.count("\n")
        is_wrong = not verdict.startswith("legal ") and rows >= int(verdict.split()[-1])
        wanted = first_blocks(entries, max(0, rows - 1)) + (f"{verdict}\n" if is_wrong else "")
        assert (name, followed.output, followed.has_ended()) == (name, wanted, is_wrong)

    several = {name: follow(audit.parent / "rack.toml") for name, audit in audits.items()}
    write_pieces(several, pieces, check)
    for name, followed in several.items():
        if followed.has_ended():
            assert (name, followed.wait().status) == (name, 1)


@pytest.mark.parametrize("folder", sorted({case.base.parent.name for case in FOLLOWED_LINES}))
def test_lines_of_json(follow, folder):
    """With --json each entry is the stored line once its row is there, and the verdict on a wrong row is a line too."""
    cases = {name_of(case.base): case for case in FOLLOWED_LINES if case.base.parent.name == folder}
    several = {name: follow(case.rack, *case.options) for name, case in cases.items()}
    for name, followed in several.items():
        followed.write(read(cases[name].audit))
    let_read(*several.values())
    for name, followed in several.items():
        is_legal = verdict_of(cases[name].expected).startswith("legal ")
        kinds = ('"entry"',) if is_legal else ('"entry"', '"verdict"')
        lines = [line for line in rows_of(cases[name].expected) if line.startswith(tuple(FRONT + kind for kind in kinds))]
        assert (name, followed.output) == (name, "".join(lines))
        assert (name, followed.has_ended()) == (name, not is_legal)
        if not is_legal:
            assert (name, followed.wait().status) == (name, 1)


def test_memory(follow, tmp_path):
    """The memory that is held does not grow with the text."""
    rack, held = tmp_path / "rack.toml", []
    rack.write_text(LONG_RACK, encoding="ascii")
    followed = follow(rack, "--to", 1)
    followed.write("rack-audit 3 line 1\n")
    for first in range(1, LONG, LONG // 3):
        followed.write("".join(f"{place} tick 1 | none | released\n" for place in range(first, first + LONG // 3)))
        let_read(followed)
        held.append(followed.memory())
    assert held[-1] - held[0] <= GROWTH, f"memory grew: {held}"
    followed.write("nonsense\n")
    done = followed.wait()
    assert (done.status, rows_of(done.output)[-1]) == (1, f"bad line {LONG + 2}\n")


def test_number_of_texts():
    assert len(FOLLOWED_TEXTS) > 50
    assert len(FOLLOWED_LINES) > 25
