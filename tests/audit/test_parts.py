"""Parts of endless audit texts: each later one begins with a head, and the text can be read from any part on."""
import re
import subprocess
import threading

import pytest

from audit.endless import HEAD_ROWS, MASTERS, MEGABYTE, joined, last_place, serve_parts, split_head
from support.processes import PATIENCE

# Parts that a text has at least, where several are needed.
PARTS = 4
# What the row of a repeat says whose request is in an earlier part.
UNKNOWN = "the reply to an earlier request is sent again"


def blocks(explained):
    """Returns the rows of each entry of an explanation: the first one has the place in its first columns."""
    found, last = {}, None
    for row in explained.splitlines(keepends=True):
        if place := re.match(r" {0,4}(\d+)  ", row):
            last = int(place[1])
            found[last] = row
        elif row.startswith(" ") and found:
            found[last] += row
        else:
            break
    return found


@pytest.fixture
def text(serve, tmp_path):
    """A text of several parts that was served: its rack file, paths and parts; and the path of all of it in one file."""
    served = serve_parts(serve, tmp_path / "audit", PARTS)
    (tmp_path / "whole").write_bytes(joined(served.parts))
    return served, tmp_path / "whole"


def test_heads(text):
    """Each later part has a head behind the last place of the part before it."""
    served, _ = text
    assert len(served.parts) >= PARTS
    for number, (before, part) in enumerate(zip(served.parts, served.parts[1:]), 2):
        head, _ = split_head(part)
        assert len(head) == HEAD_ROWS, f"the head of part {number}"
        assert head[0] == b"rack-audit 3 line 1 from %d\n" % last_place(before), f"the header of part {number}"
        assert len(before) >= MEGABYTE and before.endswith(b"\n"), f"part {number - 1}"


def test_check(text, assert_legal):
    """Any parts that follow each other are legal."""
    served, whole = text
    assert_legal(served.rack, whole, entries=last_place(served.parts[-1]))
    for first in range(len(served.parts)):
        for behind in range(first + 1, len(served.parts) + 1):
            assert_legal(served.rack, *served.paths[first:behind], entries=last_place(served.parts[behind - 1]))


def test_explanation(text, run):
    """From a later part on, an explanation has the entries behind it, with the rows that they have in that of the whole text.

    Only one repeat of each master may have an earlier request that isn't known.
    """
    served, whole = text
    of_whole = run("explain", served.rack, whole)
    assert of_whole.status == 0
    assert run("explain", served.rack, *served.paths) == of_whole
    wanted, last = blocks(of_whole.output), last_place(served.parts[-1])
    for first in range(1, len(served.parts)):
        done, before = run("explain", served.rack, *served.paths[first:]), last_place(served.parts[first - 1])
        assert (done.status, done.errors) == (0, "")
        found = blocks(done.output)
        assert list(found) == list(range(before + 1, last + 1))
        others = [place for place, rows in found.items() if rows != wanted[place]]
        assert all(UNKNOWN in found[place] for place in others) and len(others) <= len(MASTERS)
        assert done.output.endswith(f"\nlegal {last}\n")


@pytest.mark.parametrize("word", ["judge", "capture"])
def test_judge_and_capture(text, run, word):
    """Both take the parts as the whole text, and refuse to begin with a later part."""
    served, whole = text
    assert run(word, served.rack, *served.paths) == run(word, served.rack, whole)
    done = run(word, served.rack, *served.paths[1:])
    assert done.status == 1
    assert done.errors == "  row 1: the head of a later part; give the files of the text from the first part on\n"


def test_follow(text, run, program):
    """`explain --follow` goes on from a later part to the next ones."""
    served, whole = text
    wanted, before = blocks(run("explain", served.rack, whole).output), last_place(served.parts[0])
    follower = subprocess.Popen([program, "explain", served.rack, served.paths[1], "--follow"], stdin=subprocess.DEVNULL,
                                stdout=subprocess.PIPE, stderr=subprocess.DEVNULL)
    # one that does not go on is killed, so that its output ends
    patience = threading.Timer(2 * PATIENCE, follower.kill)
    patience.start()
    try:
        others = 0
        for place in range(before + 1, max(wanted) + 1):
            rows = wanted[place].encode()
            found = follower.stdout.read(len(rows))
            if found != rows:
                found += follower.stdout.readline()
                assert UNKNOWN.encode() in found, f"entry {place}"
                others += 1
        assert others <= len(MASTERS)
    finally:
        patience.cancel()
        follower.kill()
        follower.wait()
        follower.stdout.close()


def test_follow_if_the_next_part_is_gone(serve, run, tmp_path):
    """`explain --follow` ends at the end of a part if the next one was deleted before it was read."""
    served = serve_parts(serve, tmp_path / "audit", 3)
    served.paths[1].unlink()
    done = run("explain", served.rack, served.paths[0], "--follow", "--faults")
    assert (done.status, done.errors) == (2, f"rackd: cannot read {served.paths[1]}\n  no such file or folder\n")


def changed_rows(row):
    """Yields rows that differ from a row of a head in one word, none of which is a name. Of the header it is the last word."""
    words = row[:-1].split(b" ")
    first = {b"rack-audit": 5, b"line": 1}.get(words[0], 2)
    for place in range(first, len(words)):
        word = words[place]
        other = word[:-1] + (b"1" if word[-1:] == b"0" else b"0") if word[-1:].isdigit() else word + b"0"
        yield b" ".join([*words[:place], other, *words[place + 1:]]) + b"\n"


def heads_with_a_changed_word(head):
    """Yields the number of a row of a head, the row with another word, and the row as it was."""
    for at, row in enumerate(head):
        for other in changed_rows(row):
            yield at, other, row


def test_changed_heads(serve, run, tmp_path):
    """A head with any word changed is refused behind the part before it, and the row that is expected is reported."""
    served, changed = serve_parts(serve, tmp_path / "audit", 2), tmp_path / "changed"
    (head, entries), row = split_head(served.parts[1]), last_place(served.parts[0]) + 2
    count = 0
    for at, other, right in heads_with_a_changed_word(head):
        changed.write_bytes(b"".join([*head[:at], other, *head[at + 1:], *entries[:3]]))
        done = run("check", served.rack, served.paths[0], changed)
        was, is_now = right[:-1].decode(), other[:-1].decode()
        verdict = f"not the policy {row}\n"
        reported = f'  row {row} of the text, in {changed}: written "{is_now}"\n  the policy gives "{was}"\n'
        if at == 0 and not re.fullmatch(rb"rack-audit 3 line 1 from (0|[1-9]\d*)\n", other):
            verdict, reported = f"bad line {row}\n", ""
        assert (done.status, done.output) == (1, verdict), other
        assert done.errors.startswith(reported), other
        count += 1
        if count % 8 == 1:
            explained = run("explain", served.rack, served.paths[0], changed, "--summary")
            assert (explained.status, explained.output.splitlines(keepends=True)[-1]) == (1, verdict), other
    assert count > 2 * HEAD_ROWS


@pytest.mark.parametrize("rows", [1, 2, 3, HEAD_ROWS - 1])
def test_cut_heads(serve, run, tmp_path, assert_legal, rows):
    """A text that ends within a head is bad, and legal without that part. A later part that lacks a row of its head is bad."""
    served, cut = serve_parts(serve, tmp_path / "audit", 2), tmp_path / "cut"
    (head, entries), place = split_head(served.parts[1]), last_place(served.parts[0])
    for ending in b"", head[rows][:5]:
        cut.write_bytes(b"".join(head[:rows]) + ending)
        done = run("check", served.rack, served.paths[0], cut)
        assert (done.status, done.output) == (1, f"bad line {place + 2}\n")
        done = run("explain", served.rack, served.paths[0], cut, "--summary")
        assert (done.status, done.output.splitlines()[-1]) == (1, f"bad line {place + 2}")
        done = run("check", served.rack, cut)
        assert (done.status, done.output) == (1, f"bad line {rows + 1}\n")
    assert_legal(served.rack, served.paths[0], entries=place)


def test_head_without_its_last_row(serve, run, tmp_path):
    served, cut = serve_parts(serve, tmp_path / "audit", 2), tmp_path / "cut"
    head, entries = split_head(served.parts[1])
    cut.write_bytes(b"".join([*head[:-1], *entries]))
    for word in "check", "explain":
        done = run(word, served.rack, cut)
        assert (done.status, done.output) == (1, f"bad line {HEAD_ROWS}\n")
