"""What the page is sent about entries, slaves and masters, and what changed since an earlier answer."""
import json
import re

import pytest

from support.audit_texts import part_name, text_name
from support.watching import (DAY_EXPLAINED, DAY_RACK, ENDLESS_HEADER, TOP, count, day_rows, entries, places, polls, ticks)

ROWS = day_rows()
# Entries of a line that are sent at the most: the recent ones.
RECENT = 300
NO_DIAGNOSIS = {"ext_diag": False, "stat_diag": False, "overflow": False, "unread": False, "prm_fault": False, "cfg_fault": False,
                "not_supported": False, "octets": ""}
FIRST_SLAVE = {
    "address": 5, "ident": "80A1", "state": "Wait_Prm", "holder": None, "since": 0, "release": None, "left": None, "full": None,
    "min_tsdr": 11, "group": 0, "inputs": "0000", "shown": "0000", "outputs": "0000", "latest": "0000", "sync": False,
    "freeze": False, "cleared": False, "diagnosis": NO_DIAGNOSIS, "busy": [], "lockers": None, "readers": None, "has_sync": True,
    "has_freeze": True, "failsafe": False,
}


def stored_texts():
    """Returns the audit texts of tests/explain whose stored explanation by `--json` is whole, legal and not too long."""
    found = []
    for path in sorted((TOP / "tests" / "explain").glob("*/*-json.out")):
        lines = path.read_bytes().splitlines()
        wanted = [row for row in lines if json.loads(row)["kind"] == "entry"]
        options = path.with_suffix(".options").read_text(encoding="utf-8").split()
        if options == ["--json"] and 0 < len(wanted) <= RECENT and b'"legal"' in lines[-1]:
            text = path.with_name(path.name[:-len("-json.out")] + ".audit")
            found.append(pytest.param(text, wanted, id=f"{path.parent.name}/{text.stem}"))
    return found


def test_stored_texts_are_found():
    assert len(stored_texts()) > 10


@pytest.mark.parametrize("text, explained", stored_texts())
def test_entries_are_those_of_explain(watch, audit, text, explained):
    """The entries of a text are the objects that `explain --json` writes of it."""
    octets = text.read_bytes()
    number = int(re.match(rb"rack-audit \d line (\d+)\n", octets)[1])
    audit.write(text_name(number), octets)
    watched = watch(text.with_name("rack.toml"), audit.path)
    line = watched.wait_for_line(count, len(explained), number)
    assert entries(line) == [json.loads(row) for row in explained]


def test_changes_since_an_answer(watch, audit):
    """With the run and the number of an answer only what came since is sent."""
    watched = watch(DAY_RACK, audit.path)
    audit.write(text_name(), *ROWS[:6])
    watched.wait_for_line(count, 5)
    first = watched.state()
    run, number = first["run"], first["number"]
    assert first["same"] is False
    assert watched.state(f"?run={run}&after={number}") == {"run": run, "number": number, "same": True}
    audit.write(text_name(), *ROWS[6:9])
    watched.wait_for_line(count, 8)
    later = watched.state(f"?run={run}&after={number}")
    assert (later["run"], later["same"]) == (run, False)
    assert places(later["lines"][0]) == [6, 7, 8]
    numbers = [each["number"] for each in later["lines"][0]["recent"]]
    assert numbers == sorted(set(numbers))
    assert all(number < each <= later["number"] for each in numbers)


@pytest.mark.parametrize("query", [
    "", "?run={other}&after={number}", "?run={run}", "?after={number}&run={run}", "?run=x&after=1", "?run={run}&after={number}&x",
    "?run={run}&after=-1", "?run={run}&after=", "?", "?run=0{run}&after={number}x",
])
def test_queries_that_get_everything(watch, audit, query):
    """A query of another run, or of another form, gets everything."""
    watched = watch(DAY_RACK, audit.path)
    audit.write(text_name(), *ROWS[:9])
    watched.wait_for_line(count, 8)
    known = watched.state()
    asked = query.format(run=known["run"], other=int(known["run"]) + 1, number=known["number"])
    answer = watched.state(asked)
    assert answer["same"] is False
    assert places(answer["lines"][0]) == list(range(1, 9))


def test_notable_entries(watch, endless_rack, audit):
    """Of the entries before the recent ones the last notable ones are sent, and no others."""
    watched = watch(endless_rack, audit.path)
    text = part_name(1)
    audit.write(text, ENDLESS_HEADER, ticks(1, 10), polls(11, 130), ticks(141, 20), polls(161, 1), ticks(162, 299))

    def sent(line):
        return {key: [each["entry"]["place"] for each in line[key]] for key in ("recent", "notable")}

    line = watched.wait_for_line(count, 460)
    assert sent(line) == {"recent": list(range(161, 461)), "notable": list(range(21, 141))}
    audit.write(text, ticks(461, 1))
    line = watched.wait_for_line(count, 461)
    assert sent(line) == {"recent": list(range(162, 462)), "notable": [*range(22, 141), 161]}
    assert line["time"] == 329 + 1


# ---- slaves and masters


def test_slaves_and_masters_at_first(watch, audit):
    watched = watch(DAY_RACK, audit.path)
    audit.write(text_name(), ROWS[0])
    line = watched.wait_for_line(lambda line: line["standing"], "legal")
    assert line["slaves"] == [FIRST_SLAVE]
    assert line["masters"] == [{"address": address, "holds": [], "ways": []} for address in (1, 2, None)]


# What is sent about slave 5 after some entries of the day, worked out by hand.
DAY = [
    (8, {"state": "Data_Exch", "holder": 1, "since": 3, "left": 10, "full": 10, "inputs": "0102", "outputs": "1234", "busy": [],
         "diagnosis": {**NO_DIAGNOSIS, "ext_diag": True, "unread": True, "octets": "0301ff"}}),
    (12, {"busy": [None]}),
    (14, {"busy": []}),
    (17, {"left": 1, "full": 10}),
    (20, {"holder": None, "left": None, "full": None, "release": {"place": 20, "ending": "its watchdog ran out"}}),
    (23, {"state": "Wait_Cfg", "since": 23, "left": 10, "group": 1}),
    (25, {"state": "Wait_Prm", "release": {"place": 25, "ending": "unlocked"}}),
    (28, {"state": "Wait_Prm", "holder": None, "since": 0, "release": {"place": 28, "ending": "the line halted"}}),
]


def test_slave_during_the_day(watch, audit):
    watched = watch(DAY_RACK, audit.path)
    written, times = 0, {}
    for until, wanted in DAY:
        audit.write(text_name(), *ROWS[written:until + 1])
        written = until + 1
        line = watched.wait_for_line(count, until)
        slave = line["slaves"][0]
        assert (until, {key: slave[key] for key in wanted}) == (until, wanted)
        times[until] = line["time"], line["halted"]
    assert (times[25], times[28]) == ((19, False), (19, True))


def requests_by_rule():
    """Returns the numbers of requests of each master by their rules, by the stored explanation of the day."""
    rows = DAY_EXPLAINED.read_text(encoding="utf-8").splitlines()
    rows = rows[rows.index("requests by rule") + 1:]
    found = {1: {}, 2: {}, None: {}}
    for row in rows[:rows.index("slaves")]:
        sender, way, number = re.fullmatch(r"  (master \d+|others)\s+(.*?)\s+(\d+)", row).groups()
        found[None if sender == "others" else int(sender.split()[1])][way] = int(number)
    return found


def test_requests_of_masters_by_rule(watch, audit):
    watched = watch(DAY_RACK, audit.path)
    audit.write(text_name(), *ROWS)
    line = watched.wait_for_line(count, 28)
    ways = {master["address"]: {way["way"]: way["count"] for way in master["ways"]} for master in line["masters"]}
    assert ways == requests_by_rule()
    assert ways == {1: {"Repeat (retry)": 2, "NotActive": 1, "Busy": 1, "Done": 13}, 2: {"Done": 2}, None: {}}
