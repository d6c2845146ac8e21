"""Fixtures of the tests of audit texts in files."""
import pytest


@pytest.fixture
def assert_legal(run):
    """A function that asserts that a text in these files is legal by `rackd check`, and has this number of entries."""
    def check(rack, *paths, entries):
        checked = run("check", rack, *paths)
        assert checked == (0, f"legal {entries}\n", ""), f"the text in {', '.join(map(str, paths))}"

    return check


@pytest.fixture
def assert_legal_text(assert_legal, tmp_path):
    """A function that asserts that a text is legal, with an entry for each row behind its header."""
    def check(rack, text):
        path = tmp_path / "text"
        path.write_bytes(text)
        assert_legal(rack, path, entries=text.count(b"\n") - 1)

    return check
