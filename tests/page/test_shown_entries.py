"""The page: the list of entries, its filters, and the texts to which the entries belong."""
import re

import pytest

from page.shown_racks import CHANGES, FAULTS, NEWS, NOT_HOLDER, NOT_LISTED, PARAMETERS, REFUSED, exchanges, refusal
from page.stand_in import FREE, LOCKED, note, sample, to_all
from support.watching import until_equal


@pytest.mark.parametrize("chosen, places", [
    pytest.param({"kind": "all"}, list(range(15, 0, -1)), id="all"),
    pytest.param({"kind": "refused"}, REFUSED, id="refused"),
    pytest.param({"kind": "faults"}, FAULTS, id="faults"),
    pytest.param({"kind": "changes"}, CHANGES, id="changes"),
    pytest.param({"master": 1}, [10, 6, 5, 3, 1], id="a master"),
    pytest.param({"kind": "all", "slave": 9}, [8, 6], id="a slave"),
    pytest.param({"kind": "all", "text": "IDENT 80d2"}, [2], id="a text"),
])
def test_filters(shown, chosen, places):
    page = shown.open()
    assert page.places() == NEWS
    page.filter(**chosen)
    assert page.places() == places
    shown.tab.click("#f-clear")
    until_equal(page.places, NEWS)


def test_filter_without_entries(shown):
    page = shown.open()
    page.filter(kind="all", text="no such text")
    assert page.places() == []
    assert page.text("#stream") == "No entry on this page matches the filters."


def test_entries_that_come(shown):
    page = shown.open()
    assert page.texts("#stream .note") == ["line-1-1.audit begins; every slave waits for its parameters"]
    shown.follow(refusal(16), *exchanges(17, 2))
    assert page.places() == [16, *NEWS]


def test_fields_of_an_entry(shown):
    page = shown.open()
    shown.follow(to_all(16, 2, "spread over the slaves of master 2:", [(6, "Done", "done: Sync.")]))
    assert page.places() == [16, *NEWS]
    fields = page.fields(14)
    wanted = {"entry": "14 of line-1-1.audit", "time": "1,040 ms", "points": "DSAP 61, SSAP 62", "octets": "68 05 05 68 85 81",
              "parameters": PARAMETERS, "rule": "NotHolder", "refused": "yes", "fault": "yes", "sentence": NOT_HOLDER,
              "reply": "RS, not activated"}
    assert {name: fields[name] for name in wanted} == wanted
    assert page.fields(8)["change"] == f"slave 9: {LOCKED.format(1)} → {FREE}"
    assert page.fields(16)["slave 6"] == "Done. done: Sync."


def test_reader_of_an_entry_is_left_alone(shown):
    page = shown.open()
    page.fields(14)
    shown.follow(refusal(16), refusal(17))
    assert page.caption() == "The list waits while you scroll or read an entry. Newer entries: 2."
    assert page.places() == NEWS
    shown.tab.click("#newest")
    until_equal(page.places, [17, 16, *NEWS])
    assert page.count("#stream [open]") == 0


def test_reader_who_scrolls_is_left_alone(shown):
    page = shown.open()
    shown.follow(*(refusal(place) for place in range(16, 78)))
    assert page.places()[0] == 77
    page.evaluate("document.querySelector('#stream').scrollTop = 300")
    shown.follow(refusal(78))
    assert page.places()[0] == 77
    assert page.evaluate("document.querySelector('#stream').scrollTop") == 300
    assert page.caption() == "The list waits while you scroll or read an entry. Newer entries: 1."


def test_many_entries(shown):
    """The page drops routine entries that are old, and keeps what changed and what was refused. It asks for everything once."""
    page = shown.open()
    for first in (16, 266, 516):
        shown.follow(*exchanges(first, 250))
    page.filter(kind="all")
    assert page.places()[:10] == list(range(765, 755, -1))
    page.filter(kind="changes")
    assert page.places() == CHANGES
    stored = re.search(r"This page has (\d+) of 765", page.caption())
    assert 400 <= int(stored[1]) <= 600
    assert page.groups("refusals")[0] == ["M2", "slave 5", "NotHolder", "3", "14"]
    later = f"run={shown.rack.run}&after="
    assert [query for query in shown.rack.queries if not query.startswith(later) or query == f"{later}0"] == ["run=0&after=0"]


def test_older_entries_by_explain(shown):
    rack = sample()
    rack.add(*exchanges(16, 400))
    page = shown.open(rack)
    assert page.text("#foot") == "Entries before those on this page: rackd explain rack.toml audit/line-1-1.audit --to 115"


def test_endless_line(shown):
    rack = sample()
    rack.set(file="line-1-2.000003.audit", capacity=4294967295, count=2000000)
    rack.lines[0].entries = []
    rack.add(refusal(2000000))
    page = shown.open(rack)
    assert page.source() == "line-1-2.000003.audit · 2,000,001 entries of an endless line · legal so far"
    assert page.reason()["entry"] == "2000000 of line-1-2.*.audit"
    assert page.text("#foot") == "Entries before those on this page: rackd explain rack.toml audit/line-1-2.*.audit --to 1999999"


def test_next_text(shown):
    """Entries of the next text have its name, and the ones before keep theirs, also after the page is loaded again."""
    page = shown.open()
    shown.rack.set(file="line-1-2.audit", count=0)
    shown.follow(note("line-1-2.audit", "a text begins"), refusal(1, 3, 9, NOT_LISTED, "NotListed"))

    def text_of_the_reason():
        return page.reason()["entry"].split(" · ")[0]

    until_equal(text_of_the_reason, "1 of line-1-2.audit")
    assert page.reason()["before it"] == "no entry on this page changed slave 9"
    assert page.text("#foot") == ("This page has every entry of this text. In a terminal: rackd explain rack.toml "
                                  "audit/line-1-2.audit")
    for _ in range(2):
        until_equal(text_of_the_reason, "1 of line-1-2.audit")
        shown.tab.click("#refusals tbody tr:nth-child(2) button")
        until_equal(text_of_the_reason, "14 of line-1-1.audit")
        shown.open(shown.rack)
