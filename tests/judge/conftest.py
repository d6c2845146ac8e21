"""Fixtures of the tests of `rackd judge`."""
import pytest

from support.judging import JudgedText


@pytest.fixture
def text_of(run, tmp_path):
    """A function that returns the audit text that a script leaves. See `support.judging`."""
    return lambda *steps: JudgedText(run, tmp_path, steps)
