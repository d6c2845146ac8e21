"""Captures of the stored audit texts, read by a reader that is written from the text of the format pcapng."""
import pytest

from oracle.captures import faults_of
from support.captured_texts import DAY, TESTS, stored_texts

pytest.importorskip("tomllib", reason="tomllib of Python 3.11 is not installed")

TEXTS = stored_texts()


def test_all_stored_texts_are_found():
    assert len(TEXTS) >= 145
    assert len({text.name for text in TEXTS}) == len(TEXTS)


@pytest.mark.parametrize("text", TEXTS, ids=[text.name for text in TEXTS])
def test_text(capture, text):
    """The capture has the packets, times and comments of the text, and the status is that of its verdict."""
    captured = capture(text.rack, text.audit)
    assert faults_of(captured.octets, captured.status, str(text.rack), [str(text.audit)]) == []


def test_two_files_are_one_text(capture, tmp_path):
    rows = DAY.audit.read_bytes().splitlines(keepends=True)
    first, second = tmp_path / "first.audit", tmp_path / "second.audit"
    first.write_bytes(b"".join(rows[:9]))
    second.write_bytes(b"".join(rows[9:]))
    captured = capture(DAY.rack, first, second)
    assert captured == capture(DAY.rack, DAY.audit)
    assert faults_of(captured.octets, captured.status, str(DAY.rack), [str(first), str(second)]) == []


def test_text_ends_within_a_row(capture, tmp_path):
    """The packets before that row are captured."""
    cut = tmp_path / "cut.audit"
    cut.write_bytes(DAY.audit.read_bytes()[:-8])
    captured = capture(DAY.rack, cut)
    assert captured.status == 1
    assert faults_of(captured.octets, captured.status, str(DAY.rack), [str(cut)]) == []


def test_rack_is_refused(capture):
    """Nothing is written of a rack that is refused."""
    folder = TESTS / "explain" / "bad-rack"
    captured = capture(folder / "rack.toml", folder / "rack_that_is_refused.audit")
    assert (captured.status, captured.octets) == (2, b"")
