"""The sources that documents are about."""
import pytest

from support.documents import WORD
from support.repository import listed, read

LISTED = ("crates", "tests", "examples", "python", "dist/*.sh", ".ci", "crates.txt", "test", "rackd", "README.md", "HANDLES",
          ".gitignore")


@pytest.fixture(scope="session")
def sources():
    """The text of each source of the repository, by its path."""
    return {name: read(name) for name in listed(*LISTED)}


@pytest.fixture(scope="session")
def words(sources):
    """All names that sources and their paths have, other than the tests of documents: these have wrong names on purpose."""
    return {word for name, text in sources.items() if not name.startswith("tests/docs/")
            for word in WORD.findall(text) + WORD.findall(name)}
