"""Lines of JSON: those of `rackd explain --json` are read by Python's json, and fit share/explain.schema.json."""
import copy
import json

import pytest

from oracle.json_lines import SCHEMA, first_wrong
from oracle.json_schema import is_valid
from support.explanations import (TOP, each_text, entries_of, heads_of, name_of, rows_of, status_of, stored_cases, verdict_of,
                                  whole_explanation)
from support.processes import run_program

STORED_LINES = [case for case in stored_cases() if "--json" in case.options]
# Kinds of reasons that no stored text has: a halted line and a refusal record nothing, and a repeat is unknown behind a head.
NOT_STORED = {"Halted", "OperatorRefused", "UnknownRepeat"}
# A line of an entry, lines of a summary, and that of a verdict.
ENTRY = {
    "version": 2, "kind": "entry", "place": 1, "time": None, "from": "master", "master": 1, "to": "slave", "address": 5,
    "event": {"kind": "request", "frame": "SD2", "da": 5, "sa": 1, "function": 13, "fcb": True, "fcv": True, "dsap": 59,
              "ssap": 62, "service": "Get_Cfg", "data": "", "octets": "6805056885816d3b3eec16", "decoded": None,
              "words": "Get_Cfg (59)"},
    "answer": {"outcome": "done", "rule": "Done", "octets": "e5", "words": "SC, short acknowledgement"},
    "refused": False, "fault": False, "surprising": False, "reason": {"kind": "Read"}, "sentence": "done.", "slaves": [],
    "changes": [], "releases": [],
}
HOLD = {"version": 2, "kind": "hold", "slave": 5, "master": 1, "since": 3, "to": 20, "ending": "watchdog"}
COUNT = {"version": 2, "kind": "count", "master": None, "way": "Repeat (retry)", "count": 3, "fault": False}
POLL = {"version": 2, "kind": "poll", "address": 127, "station": None, "count": 3}
VERDICT = '{"version":2,"kind":"verdict","verdict":"legal","entries":1}\n'
CHANGE = {"slave": 5, "before": {"state": "Wait_Prm", "holder": None}, "after": {"state": "Wait_Cfg", "holder": 1}}
ANSWER = {"slave": 5, "outcome": "done", "rule": "Done", "reason": {"kind": "Read"}, "sentence": "done."}


def line(value):
    return json.dumps(value, separators=(",", ":")) + "\n"


def line_of(path="", value=None, **changed):
    """Returns the line of the entry with other values; `path` names one of an object in it, as `event.da`."""
    entry = copy.deepcopy(ENTRY) | changed
    if path:
        name, key = path.split(".")
        entry[name][key] = value
    return line(entry)


WRONG_TEXTS = {
    "no-lf": line_of() + VERDICT.rstrip(),
    "no-verdict": line_of(),
    "no-json": "entry\n" + VERDICT,
    "space": line_of().replace(":", ": ", 1) + VERDICT,
    "key-twice": line_of().replace('"place":1', '"place":1,"place":1', 1) + VERDICT,
    "key-missing": line_of().replace('"ssap":62,', "", 1) + VERDICT,
    "keys-in-another-order": line_of().replace('"place":1,"time":null', '"time":null,"place":1', 1) + VERDICT,
    "key-too-much": line_of(more=1) + VERDICT,
    "key-too-much-inside": line_of("event.more", 1) + VERDICT,
    "version-1": line_of(version=1) + VERDICT,
    "place-0": line_of(place=0) + VERDICT,
    "place-true": line_of(place=True) + VERDICT,
    "place-of-33-bits": line_of(place=2**32) + VERDICT,
    "master-without-request": line_of(event={"kind": "halt", "words": "halt"}) + VERDICT,
    "capital-hex": line_of("event.octets", "6805056885816D") + VERDICT,
    "half-an-octet": line_of("event.octets", "680") + VERDICT,
    "fcb-as-number": line_of("event.fcb", 1) + VERDICT,
    "unknown-service": line_of("event.service", "Get_CFG") + VERDICT,
    "unknown-rule": line_of("answer.rule", "None") + VERDICT,
    "request-without-rule": line_of("answer.rule", None) + VERDICT,
    "reply-without-words": line_of("answer.words", None) + VERDICT,
    "unknown-outcome": line_of("answer.outcome", "Done") + VERDICT,
    "unknown-target": line_of(to="all slaves") + VERDICT,
    "slave-without-address": line_of(address=None) + VERDICT,
    "address-to-nobody": line_of(to="nobody") + VERDICT,
    "unknown-reason": line_of(reason={"kind": "Done"}) + VERDICT,
    "reason-without-a-field": line_of(reason={"kind": "NotHolder", "holder": 1}) + VERDICT,
    "reason-of-another-kind": line_of(reason={"kind": "Busy", "holder": 1, "since": 72}) + VERDICT,
    "no-reason": line_of(reason=None) + VERDICT,
    "unknown-state": line_of(changes=[CHANGE | {"after": {"state": "WaitCfg", "holder": 1}}]) + VERDICT,
    "release-without-change": line_of(releases=[{"slave": 5, "master": 1, "ending": "unlocked", "watchdog": None}]) + VERDICT,
    "answers-of-one-slave": line_of(slaves=[ANSWER]) + VERDICT,
    "control-octet": line_of(sentence="a\tb") + VERDICT,
    "refused-as-text": line_of(refused="false") + VERDICT,
    "unknown-ending": line(HOLD | {"ending": "its watchdog ran out"}) + VERDICT,
    "unknown-way": line(COUNT | {"way": "Repeat"}) + VERDICT,
    "hold-before-entry": line(HOLD) + line_of() + VERDICT,
    "poll-before-count": line(POLL) + line(COUNT) + VERDICT,
    "unknown-kind": line(POLL | {"kind": "polls"}) + VERDICT,
    "verdict-with-the-other-number": line_of() + VERDICT.replace("entries", "row"),
    "unknown-verdict": line_of() + VERDICT.replace('"legal"', '"right"'),
    "verdict-not-last": VERDICT + line_of(),
    "empty-line": line_of() + "\n" + VERDICT,
}


def entries_in(text):
    return [value for value in map(json.loads, rows_of(text)) if value["kind"] == "entry"]


@each_text
def test_all_texts(by, audit):
    """Each text is explained in lines that can be read, one for each entry, and its explanation ends in the same verdict."""
    explained = whole_explanation(audit)
    done, verdict = run_program([by, "explain", audit.parent / "rack.toml", audit, "--json"]), verdict_of(explained)
    assert first_wrong(done.output) is None
    assert (done.status, verdict_of(done.output)) == (status_of(verdict), verdict)
    places = [entry["place"] for entry in entries_in(done.output)]
    assert places == [int(head.split()[0]) for head in heads_of(entries_of(explained))]


@pytest.mark.parametrize("case", STORED_LINES, ids=lambda case: name_of(case.base))
def test_stored_lines(case):
    assert first_wrong(case.expected) is None


def test_number_of_stored_lines():
    assert len(STORED_LINES) >= 52
    assert all(case in STORED_LINES for case in stored_cases() if "-json" in case.base.name)


def test_all_kinds_are_stored():
    """Each event, outcome, kind of reason and kind of line of the schema occurs in a stored line."""
    lines = [json.loads(row) for case in STORED_LINES for row in rows_of(case.expected)]
    entries = [value for value in lines if value["kind"] == "entry"]
    answers = [entry["answer"] for entry in entries] + [answer for entry in entries for answer in entry["slaves"]]
    reasons = [answer["reason"] for entry in entries for answer in (entry, *entry["slaves"]) if answer["reason"]]
    named = {reason["properties"]["kind"]["const"] for reason in SCHEMA["$defs"]["reason"]["anyOf"]}
    assert {reason["kind"] for reason in reasons} == named - NOT_STORED
    assert {entry["event"]["kind"] for entry in entries} == {"request", "in", "diag", "busy", "tick", "halt"}
    assert {answer["outcome"] for answer in answers} == set(SCHEMA["$defs"]["answer"]["properties"]["outcome"]["enum"])
    assert {value["kind"] for value in lines} == {"entry", "hold", "count", "station", "poll", "verdict"}
    endings = SCHEMA["$defs"]["hold"]["properties"]["ending"]["enum"]
    assert {value["ending"] for value in lines if value["kind"] == "hold"} == set(endings)


def test_right_lines():
    assert first_wrong(line_of() + line(HOLD) + line(COUNT) + line(POLL) + VERDICT) is None
    assert first_wrong(VERDICT.replace('"legal","entries"', '"bad line","row"')) is None
    assert first_wrong("") is None


@pytest.mark.parametrize("text", WRONG_TEXTS.values(), ids=WRONG_TEXTS.keys())
def test_wrong_lines(text):
    """The reader of lines finds what is wrong in them."""
    assert first_wrong(text) is not None


def test_schema_by_another_validator():
    """The package jsonschema, if Python has it, accepts the schema, and agrees about right and wrong lines."""
    jsonschema = pytest.importorskip("jsonschema")
    jsonschema.Draft202012Validator.check_schema(SCHEMA)
    other = jsonschema.Draft202012Validator(SCHEMA)
    texts = [case.expected for case in STORED_LINES] + list(WRONG_TEXTS.values())
    values = [json.loads(row) for text in texts for row in text.splitlines() if row.startswith("{")]
    assert [value for value in values if other.is_valid(value) != is_valid(value, SCHEMA)] == []


def test_schema_is_printable():
    text = (TOP / "share" / "explain.schema.json").read_bytes()
    assert text.isascii() and text.endswith(b"}\n")
