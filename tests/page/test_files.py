"""The folder that is watched: which of its files are read, their names, and that nothing of it is changed."""
import os

import pytest

from support.audit_texts import part_name, text_name
from support.watching import DAY_RACK, ENDLESS_HEADER, AuditFolder, ask, count, day_rows, standing, wait_for_a_look

ROWS = day_rows()


@pytest.mark.parametrize("name", [
    "line-1-08.audit", "line-1-x.audit", "line-3-9.audit", "line-1-9.audit.gz", "line-01-9.audit", "line-1-0.audit",
    "line-1-9.00001.audit", "line-1-9.000000.audit", "line-1-9.0000001.audit", "line-1-7.000001.audit", "xline-1-9.audit",
    "line-1-9.audit~", "line-257-9.audit", "line-1-4294967296.audit", "line-1--9.audit", "line-1-+9.audit",
])
def test_other_names(watch, two_line_rack, audit, name):
    """A file of another name, or of another line, is not read as the next text of line 1."""
    audit.write(text_name(1, 7), *ROWS[:3])
    watched = watch(two_line_rack, audit.path)
    watched.wait_for_line(standing, (text_name(1, 7), "legal", 0, 2))
    audit.write(name, *ROWS)
    wait_for_a_look(watched, audit)
    assert standing(watched.line()) == (text_name(1, 7), "legal", 0, 2)


def test_text_of_another_line(watch, two_line_rack, audit):
    """The text of line 2 is no text of line 1; and neither is a folder."""
    audit.write(text_name(1, 7), *ROWS[:3])
    watched = watch(two_line_rack, audit.path)
    watched.wait_for_line(standing, (text_name(1, 7), "legal", 0, 2))
    audit.write(text_name(2, 9), *ROWS)
    (audit.path / "line-1-8.audit.d").mkdir()
    watched.wait_for_line(standing, (text_name(2, 9), "bad line", 1, 0), number=2)
    for number in (10, 11):
        audit.write(text_name(2, number), b"rack-audit 2 line 2\n")
        watched.wait_for_line(standing, (text_name(2, number), "legal", 0, 0), number=2)
    assert standing(watched.line()) == (text_name(1, 7), "legal", 0, 2)


@pytest.mark.parametrize("number, entries", [
    pytest.param(3, 3, id="the highest number"),
    pytest.param(1, 28, id="the lowest number"),
    pytest.param(2, 2, id="one between them"),
])
def test_newest_text(watch, two_line_rack, audit, number, entries):
    """At the start the text that was changed last is followed, whatever its number, and no other text that is there then."""
    for each, rows in ((1, ROWS), (2, ROWS[:3]), (3, ROWS[:4])):
        audit.write(text_name(1, each), *rows)
        moment = 2000 if each == number else 1000 + each
        os.utime(audit.path / text_name(1, each), (moment, moment))
    watched = watch(two_line_rack, audit.path)
    watched.wait_for_line(standing, (text_name(1, number), "legal", 0, entries))
    wait_for_a_look(watched, audit)
    assert standing(watched.line()) == (text_name(1, number), "legal", 0, entries)
    audit.write(text_name(1, 4), ROWS[0])
    watched.wait_for_line(standing, (text_name(1, 4), "legal", 0, 0))


def test_newest_text_in_parts(watch, two_line_rack, audit):
    """A text is as new as that of its files which was changed last, and it is read from its first file on."""
    files = [(part_name(1), 1000, [ENDLESS_HEADER, *ROWS[1:8]]), (part_name(2), 1001, ROWS[8:9]),
             (part_name(3), 3000, ROWS[9:20]), (part_name(4), 1002, ROWS[20:]), (text_name(1, 2), 2000, ROWS[:3])]
    for name, moment, rows in files:
        audit.write(name, *rows)
        os.utime(audit.path / name, (moment, moment))
    watched = watch(two_line_rack, audit.path)
    watched.wait_for_line(standing, (part_name(4), "legal", 0, 28))


def test_texts_that_were_changed_at_one_moment(watch, two_line_rack, audit):
    """Of several texts that were changed last the one with the highest number is followed."""
    for number, rows in ((1, ROWS), (2, ROWS[:3]), (3, ROWS[:4]), (4, ROWS[:5])):
        audit.write(text_name(1, number), *rows)
        moment = 1000 if number == 4 else 2000
        os.utime(audit.path / text_name(1, number), (moment, moment))
    watched = watch(two_line_rack, audit.path)
    watched.wait_for_line(standing, (text_name(1, 3), "legal", 0, 3))


def test_names_of_files(watch, tmp_path):
    """Names with markup, quotes and other octets are sent as strings of ASCII, one character for each octet."""
    audit = AuditFolder(tmp_path / '<img src=x onerror="alert(1)">\\ä')
    audit.write(text_name(), *ROWS[:3])
    watched = watch(DAY_RACK, audit.path)
    watched.wait_for_line(count, 2)
    body = ask(watched.port, "GET", "/state.json").body
    assert all(octet < 127 for octet in body)
    sent = watched.state()
    assert sent["folder"].encode("latin-1").decode("utf-8") == str(audit.path)
    assert sent["rack"] == str(DAY_RACK)


def snapshot(folder):
    """Returns the names, times and octets of all that is in a folder."""
    return sorted((path.name, path.stat().st_mtime_ns, path.read_bytes()) for path in folder.iterdir())


def test_nothing_is_written(watch, audit):
    """The folder and its files stay as they were while the page is asked for, and after the program has ended."""
    audit.write(text_name(), *ROWS)
    before = snapshot(audit.path)
    watched = watch(DAY_RACK, audit.path)
    watched.wait_for_line(count, 28)
    for path in "/", "/state.json", "/page.js":
        assert ask(watched.port, "GET", path).status == 200
    assert snapshot(audit.path) == before
    watched.kill()
    assert snapshot(audit.path) == before


def test_text_that_is_deleted(watch, two_line_rack, audit):
    """Nothing is locked, so a text can be deleted; what was read of it stays shown."""
    audit.write(text_name(), *ROWS)
    watched = watch(two_line_rack, audit.path)
    watched.wait_for_line(count, 28)
    (audit.path / text_name()).unlink()
    wait_for_a_look(watched, audit)
    assert standing(watched.line()) == (text_name(), "legal", 0, 28)
