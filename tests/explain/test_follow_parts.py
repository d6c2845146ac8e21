"""`rackd explain --follow` on a text in several files: those that are named, and later parts that appear while it goes on."""
import shutil
import subprocess
import time

import pytest

from support.explanations import day, first_blocks

# Names of files that are no parts of the text of line 1, or after which no part can come.
OTHER_NAMES = ("line-1-1.audit", "line-1-1.00001.audit", "line-1-1.0000001.audit", "line-1-1.000000.text", "line-1.000001.audit",
               "text-1-1.000001.audit", "line-1-1.000001x.audit", "line-1-2.000001.audit", "line-x-1.000001.audit")
# How often a row and a part are written at some other moment of the time between two reads, and the seconds between two moments.
MOMENTS, BETWEEN = 20, 0.01
# Microseconds by which each question for a later part is held up.
HELD_UP = 150_000


def part(number):
    """Returns the name of a part of the text of line 1."""
    return f"line-1-1.{number:06}.audit"


def test_named_files(follow, tmp_path):
    """Files before the last one are read to their ends, and the last one goes on."""
    rack, rows, entries = day()
    for name, text in (("first", rows[:8]), ("second", rows[8:9])):
        (tmp_path / name).write_text("".join(text), encoding="utf-8")
    followed = follow(rack, files=[tmp_path / "first", tmp_path / "second", "last"])
    followed.expect(first_blocks(entries, 8))
    followed.expect_nothing_more(first_blocks(entries, 8))
    followed.write("".join(rows[9:]))
    followed.expect(entries)


def test_later_parts(follow):
    """A part that appears is followed behind the end of the part before it, and a row may be cut by that end."""
    rack, rows, entries = day()
    followed, cut = follow(rack, files=[part(9)]), len(rows[8]) // 2
    followed.write("".join(rows[:8]) + rows[8][:cut])
    followed.expect_nothing_more(first_blocks(entries, 7))
    followed.write_part(part(10), rows[8][cut:] + rows[9])
    followed.expect(first_blocks(entries, 9))
    followed.expect_nothing_more(first_blocks(entries, 9))
    # Three parts at once, the second of which has no rows yet.
    followed.write_part(part(13), "".join(rows[11:]))
    followed.write_part(part(12), "")
    followed.write_part(part(11), rows[10])
    followed.expect(entries)
    followed.expect_nothing_more(entries)


def test_part_that_grows(follow):
    """What was written to a part last comes before what is in the next one, at whatever moment both are written."""
    rack, rows, entries = day()
    several = [follow(rack, files=[part(999_999)]) for _ in range(MOMENTS)]
    for followed in several:
        followed.write("".join(rows[:8]))
    for followed in several:
        followed.expect(first_blocks(entries, 7))
    for followed in several:
        time.sleep(BETWEEN)
        followed.write(rows[8])
        followed.write_part(part(1_000_000), "".join(rows[9:]))
    for followed in several:
        followed.expect(entries)


def test_row_that_is_written_behind_the_end(follow):
    """A row may come behind the end of a part that was read, and the next part before it is looked for.

    That is a matter of microseconds. So each question whether the next part is there is held up while both are written.
    """
    strace = shutil.which("strace")
    if strace is None:
        pytest.skip("strace is not installed")
    holding_up = [strace, "-o", "/dev/null", "-e", "trace=statx", "-e", f"inject=statx:delay_enter={HELD_UP}"]
    if subprocess.run([*holding_up, "true"], capture_output=True, check=False).returncode != 0:
        pytest.skip("strace cannot trace a process here, and hold up its calls")
    rack, rows, entries = day()
    several = [follow(rack, files=[part(1)], wrapper=[*holding_up, "-D"]) for _ in range(6)]
    for followed in several:
        followed.write("".join(rows[:8]))
    for followed in several:
        followed.expect(first_blocks(entries, 7))
    for followed in several:
        time.sleep(HELD_UP / 4e6)
        followed.write(rows[8])
        followed.write_part(part(2), "".join(rows[9:]))
    for followed in several:
        followed.expect(entries)


@pytest.mark.parametrize("name", OTHER_NAMES)
def test_no_later_part(follow, name):
    """A file that is not the next part of the same text is not read, while the text goes on in its own file."""
    rack, rows, entries = day()
    followed = follow(rack, files=[name])
    followed.write("".join(rows[:8]))
    followed.expect(first_blocks(entries, 7))
    for other in (part(2), part(3), "line-2-2.000003.audit", "line-1.000002.audit", "text-1-1.000002.audit",
                  "line-x-1.000002.audit"):
        followed.write_part(other, "".join(rows[8:]))
    followed.expect_nothing_more(first_blocks(entries, 7))
    followed.write("".join(rows[8:]))
    followed.expect(entries)


def test_part_that_is_no_file(follow):
    """A later part that can't be read is refused with its path."""
    rack, rows, entries = day()
    followed = follow(rack, files=[part(1)])
    followed.write("".join(rows[:8]))
    followed.expect(first_blocks(entries, 7))
    (followed.folder / part(2)).mkdir()
    errors = f"rackd: cannot read {followed.folder / part(2)}\n  it is a folder, not a file\n"
    assert followed.wait() == (2, first_blocks(entries, 7), errors)


def test_part_that_was_deleted(follow):
    """If a part is missing and a later one is there, the missing one can't be read."""
    rack, rows, entries = day()
    followed = follow(rack, files=[part(1)])
    followed.write("".join(rows[:8]))
    followed.expect(first_blocks(entries, 7))
    followed.write_part(part(3), "".join(rows[9:]))
    done = followed.wait()
    assert (done.status, done.output) == (2, first_blocks(entries, 7))
    assert done.errors.split("\n")[0] == f"rackd: cannot read {followed.folder / part(2)}"
