"""What docs/internals/architecture.md says about crates is what crates.txt and the sources say."""
import pytest

from support.crates import LIBRARIES, USERS, crates_of_document, crates_of_list, first_sentence, may_use, uses_in
from support.repository import TOP, listed, read

CRATES = crates_of_list(read("crates.txt"))
SENTENCES = {name: text for name, _, text in crates_of_document(read("docs/internals/architecture.md"))}


def root_of(crate):
    """Returns the text of the lib.rt of a crate, or of its main.rt."""
    library = f"crates/{crate}/src/lib.rt"
    return read(library if (TOP / library).exists() else f"crates/{crate}/src/main.rt")


def test_crates_are_listed_in_the_groups_and_the_order_of_crates_txt():
    given = [(crate, group.casefold()) for crate, group, _ in crates_of_document(read("docs/internals/architecture.md"))]
    assert given == [(crate, group.casefold()) for crate, group, _ in CRATES]


@pytest.mark.parametrize("crate", [crate for crate, _, _ in CRATES])
def test_sentence_is_the_first_of_the_head_of_the_crate(crate):
    assert SENTENCES[crate] == first_sentence(root_of(crate))


@pytest.mark.parametrize(("crate", "below"), [
    pytest.param(crate, below, id=crate) for crate, _, below in CRATES if not may_use(crate)])
def test_crate_uses_no_threads_sockets_and_files(crate, below):
    assert [library for library in LIBRARIES if library in below] == []
    uses = {name: uses_in(read(name)) for name in listed(f"crates/{crate}/**.rt")}
    assert uses, "the crate has no source"
    assert {name: found for name, found in uses.items() if found} == {}


@pytest.mark.parametrize("crate", USERS)
def test_crate_that_may_use_them_is_listed(crate):
    assert crate in [name for name, _, _ in CRATES]
