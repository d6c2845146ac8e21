"""The page: markup in names and texts is shown as text, names in UTF-8, and nothing comes from elsewhere."""
import pytest

from page.shown_racks import refusal
from page.stand_in import note, sample, way
from support.watching import until_equal

MARKUP = "<img src=x onerror=document.title=1>"


def test_markup_is_text(shown):
    rack = sample()
    rack.rack, rack.folder = "<b>.toml", MARKUP
    rack.set(1, file=None)
    rack.add(note("line-1-1.audit", MARKUP), refusal(16, sentence=f"refused: {MARKUP}", rule="<script>alert(1)</script>",
                                                     decoded={"as": MARKUP, "words": MARKUP}, reply=MARKUP))
    rack.lines[0].fields["masters"][0]["ways"].append(way(MARKUP, 1))
    page = shown.open(rack)
    assert page.sentence() == f"refused: {MARKUP}"
    page.fields(16)
    assert f"'{MARKUP}'/line-1-1.audit" in page.text("#foot")
    shown.tab.click("#lines button:nth-child(2)")
    until_equal(page.source, f"no file yet of line 2 in {MARKUP}")
    assert {selector: page.count(selector) for selector in ("img", "script", "code b, bdi *")} == {
        "img": 0, "script": 1, "code b, bdi *": 0}
    assert page.evaluate("document.title") == "rackd watch"


@pytest.mark.parametrize("folder, name", [
    pytest.param("Prüfstand/Наладка", "Prüfstand/Наладка", id="letters"),
    pytest.param(b"caf\xe9", "café", id="octets that are not UTF-8"),
    pytest.param("a\u202eb", "a\u202eb", id="another direction"),
])
def test_names_of_folders(shown, folder, name):
    rack = sample()
    rack.folder = folder
    rack.set(file=None)
    assert shown.open(rack).source() == f"no file yet of line 1 in {name}"


def test_name_with_a_quote(shown):
    rack = sample()
    rack.folder = "the rack's"
    assert shown.open(rack).text("#foot") == ("This page has every entry of this text. In a terminal: rackd explain rack.toml "
                                              "'the rack'\\''s'/line-1-1.audit")


def test_nothing_from_elsewhere(shown):
    """The page asks only its own server, breaks no policy, and has no style in its nodes, whatever the reader does."""
    page = shown.open()
    shown.tab.click("[data-cell='5 1']")
    shown.tab.click("#refusals tbody tr:nth-child(2) button")
    page.fields(14)
    shown.tab.click("#lines button:nth-child(2)")
    shown.follow(refusal(16))
    shown.follow(refusal(17))
    assert shown.tab.errors() == []
    requests = shown.tab.requests()
    assert f"{shown.server.url}page.js" in requests
    assert [url for url in requests if not url.startswith((shown.server.url, "data:"))] == []
    assert page.count("[style]") == 0
