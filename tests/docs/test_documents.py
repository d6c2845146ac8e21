"""README.md, the other documents at the top, and those of docs/: paths, names, places and commands in them are there."""
import re
from pathlib import Path

import pytest

from support.documents import (long_lines, misplaced_names, missing_paths, sentences_of_first_paragraph, unknown_names,
                               wrong_commands)
from support.repository import TOP, listed, read

FOLDERS = {"docs", "docs/guide", "docs/internals", "docs/reference"}
DOCUMENTS = sorted(name for name in listed("*.md") if "/" not in name or str(Path(name).parent) in FOLDERS)
# Words of rackd with `help`, and that of `python -m rackd`.
WORDS = {"run", "check", "explain", "judge", "capture", "gsd", "slave", "serve", "watch", "operate", "cable", "help", "suite"}

each_document = pytest.mark.parametrize("name", DOCUMENTS)


def test_there_are_documents():
    assert {"README.md", "CONTRIBUTING.md", "CHANGELOG.md", "docs/internals/architecture.md", "docs/reference/policy.md"} <= set(DOCUMENTS)


def test_list_of_documents_has_each_one_once():
    """docs/README.md links to each document of docs/ once, and to README.md and CONTRIBUTING.md."""
    linked = re.findall(r"\]\(([^)#]+\.md)\)", read("docs/README.md"))
    chapters = [str(Path(name).relative_to("docs")) for name in DOCUMENTS if name.startswith("docs/") and name != "docs/README.md"]
    assert sorted(linked) == sorted([*chapters, "../README.md", "../CONTRIBUTING.md"])


@each_document
def test_lines_have_at_most_120_characters(name):
    assert long_lines(read(name)) == []


@pytest.mark.parametrize("name", [name for name in DOCUMENTS if name != "README.md"])
def test_first_paragraph_is_one_sentence(name):
    assert sentences_of_first_paragraph(read(name)) == 1


@each_document
def test_paths(name, sources):
    assert missing_paths(read(name), Path(name).parent, TOP, sources) == []


# The names of the changelog may be those of former versions.
@pytest.mark.parametrize("name", [name for name in DOCUMENTS if name != "CHANGELOG.md"])
def test_names(name, words):
    assert unknown_names(read(name), words) == []


@each_document
def test_places_of_names(name, sources):
    assert misplaced_names(read(name), sources) == []


@each_document
def test_commands(name):
    assert wrong_commands(read(name), TOP, WORDS) == []
