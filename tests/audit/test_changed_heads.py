"""Changed heads with which a text begins: the program accepts and refuses them, with the row, as the model of heads does."""
import itertools
import os
from collections import Counter
from concurrent.futures import ThreadPoolExecutor
from typing import NamedTuple

import pytest

from support.processes import run_program
from support.racks import line, rack, slave

pytest.importorskip("tomllib", reason="Python has no tomllib, by which the model reads rack files: 3.11 has it")

from audit.changed_heads import RACK, RUNS, GoodHead, head_behind, some_pairs, spec_of_line  # noqa: E402
from oracle.head_rules import RULES_OF_LINES, RULES_OF_SLAVES, WrongRow, broken_rules, read_head, verdict_on  # noqa: E402

# The pairs of changes of each head.
PAIRS = 350
# The least number of changed heads in all.
LEAST = 5000
SPEC = spec_of_line()


class ChangedHead(NamedTuple):
    """A head with a change, or two: the fields that are changed, the text, and the verdict of the model."""

    fields: tuple
    text: str
    verdict: str


def changed_head(head, *changes):
    text = head.with_changes(*changes)
    return ChangedHead(tuple(change.field for change in changes), text, verdict_on(SPEC, text))


def changed_heads(head):
    """Returns a head with each change, and with pairs of those changes that leave the form of its rows."""
    alone = [(change, changed_head(head, change)) for change in head.changes()]
    in_form = [change for change, changed in alone if not changed.verdict.startswith("bad line")]
    pairs = [changed_head(head, *pair) for pair in some_pairs(in_form, PAIRS, seed=head.count)]
    return [changed for _, changed in alone] + pairs


@pytest.fixture(name="heads", scope="module")
def fixture_heads(program, tmp_path_factory):
    """The heads of the line behind each run."""
    def run(*words):
        return run_program([program, *words])

    return {name: GoodHead(head_behind(run, tmp_path_factory.mktemp(name), script)) for name, script in RUNS.items()}


@pytest.fixture(name="all_changed", scope="module")
def fixture_all_changed(heads):
    """The changed heads of all runs."""
    return [changed for head in heads.values() for changed in changed_heads(head)]


def verdicts_of(program, folder, texts):
    """Returns the status and the output of `check` for each text, many at one time."""
    rack_file = folder / "rack.toml"
    rack_file.write_text(RACK, encoding="ascii")

    def check(numbered):
        number, text = numbered
        path = folder / f"{number}.audit"
        path.write_text(text, encoding="ascii")
        done = run_program([program, "check", rack_file, path])
        path.unlink()
        return done.status, done.output

    with ThreadPoolExecutor(os.cpu_count()) as threads:
        return list(threads.map(check, enumerate(texts)))


def wanted(verdict):
    return 0 if verdict.startswith("legal ") else 1, f"{verdict}\n"


def rows_that_differ(text, head):
    return [new for new, old in itertools.zip_longest(text.splitlines(), head.splitlines()) if new != old]


@pytest.mark.parametrize("name", RUNS)
def test_heads(program, heads, tmp_path, name):
    """The head behind a run is accepted, and each changed one exactly if the model accepts it; otherwise with its row."""
    right = heads[name].with_changes()
    changed = changed_heads(heads[name])
    found = verdicts_of(program, tmp_path, [right, *(head.text for head in changed)])
    assert found[0] == wanted(f"legal {heads[name].count}")
    faults = [f"{', '.join(head.fields)}: {rows_that_differ(head.text, right)}: {head.verdict}, not {output!r} ({status})"
              for head, (status, output) in zip(changed, found[1:]) if (status, output) != wanted(head.verdict)]
    assert not faults, f"{len(faults)} of {len(changed)} verdicts differ\n" + "\n".join(faults[:20])


def test_each_field_is_accepted_and_refused(all_changed):
    """Among the heads with one change, each field has values that are accepted, and values that are refused."""
    outcomes = Counter((head.fields[0], head.verdict.startswith("legal ")) for head in all_changed if len(head.fields) == 1)
    fields = {field for field, _ in outcomes}
    assert {field for field in fields if not outcomes[field, True]} == set(), "these are never accepted"
    assert {field for field in fields if not outcomes[field, False]} == set(), "these are never refused"
    assert len(all_changed) >= LEAST


def deciding_rule(text):
    """Returns the name of the rule without which a head would have another verdict, or None."""
    try:
        broken = broken_rules(SPEC, read_head(SPEC, text))
    except WrongRow:
        return None
    if not broken:
        return None
    row, rule = broken[0]
    others = [other_row for other_row, other in broken if other != rule]
    return rule if others[:1] != [row] else None


def test_each_rule_decides(all_changed):
    """Each rule decides the verdict on some changed head, so a program without the rule would have another verdict."""
    rules = {rule.__name__ for rule in [*RULES_OF_SLAVES, *(rule for _, rule in RULES_OF_LINES)]}
    assert rules - {deciding_rule(changed.text) for changed in all_changed} == set()


# ---- Heads that were forged by hand

FORGED_RACK = rack(line(7, slave(5, sync=True, freeze=True, lockers=[1]), slave(6, user_max=2, cfg=["2111", "2010", "2111"]),
                        masters=[1, 2], capacity=1000))
FORGED_HEAD = """\
rack-audit 3 line 7 from 7160
line running 18929
slave 5 DataExch 1 4 95 --------
set 5 60 0 0 ---
prm 5 100 -f 60 3 -
in 5 aa55 aa54
out 5 0102 0102
diag 5 e--u--- 0407
last 5 1 1 6805056801050aaa540e16
last 5 2 none
slave 6 DataExch 2 7158 off --------
set 6 11 0 0 ---
prm 6 off -- 11 0 0aff
in 6 1234 0000
out 6 0000 0000
diag 6 ------- -
last 6 1 none
last 6 2 1 e5
"""
# Both slaves of the same line wait for parameters.
WAITING_HEAD = """\
rack-audit 3 line 7 from 0
line running none
slave 5 WaitPrm none 0 off --------
set 5 11 none 0 ---
prm 5 none
in 5 0000 0000
out 5 0000 0000
diag 5 ------- -
last 5 1 none
last 5 2 none
slave 6 WaitPrm none 0 off --------
set 6 11 none 0 ---
prm 6 none
in 6 0000 0000
out 6 0000 0000
diag 6 ------- -
last 6 1 none
last 6 2 none
"""
REPLY = "1 1 6805056801050aaa540e16"
# The head, the old octets, the new ones, and the row that is reported. Slave 5 has its rows from row 3 on, slave 6 from row 11.
FORGED = {
    "more-time-left-than-there-was": (FORGED_HEAD, "1 4 95", "1 4 4000000000", 3),
    "no-time-left": (FORGED_HEAD, "1 4 95", "1 4 0", 3),
    "watchdog-time-above-65025": (FORGED_HEAD, "prm 5 100", "prm 5 70000", 3),
    "watchdog-time-of-no-factors": (FORGED_HEAD, "prm 5 100", "prm 5 65021", 3),
    "holder-that-is-no-locker": (FORGED_HEAD, "DataExch 1", "DataExch 2", 3),
    "sync-req-without-sync": (FORGED_HEAD, "prm 6 off --", "prm 6 off s-", 11),
    "freeze-req-without-freeze": (FORGED_HEAD, "prm 6 off --", "prm 6 off -f", 11),
    "too-many-user-parameters": (FORGED_HEAD, "0aff", "0aff00", 11),
    "sync-mode-that-was-not-asked-for": (FORGED_HEAD, "set 5 60 0 0 ---", "set 5 60 0 0 s--", 3),
    "freeze-mode-that-was-not-asked-for": (FORGED_HEAD, "set 6 11 0 0 ---", "set 6 11 0 0 -f-", 11),
    "min-tsdr-0": (FORGED_HEAD, "set 5 60", "set 5 0", 3),
    "prm-fault-in-data-exchange": (FORGED_HEAD, "e--u---", "e--up--", 3),
    "cfg-fault-in-data-exchange": (FORGED_HEAD, "e--u---", "e--u-c-", 3),
    "not-supported-without-prm-fault": (WAITING_HEAD, "diag 6 -------", "diag 6 ------n", 11),
    "not-supported-though-all-is-supported": (WAITING_HEAD, "diag 5 -------", "diag 5 ----p-n", 3),
    "two-faults": (WAITING_HEAD, "diag 6 -------", "diag 6 ----pc-", 11),
    "data-that-wait-for-no-sync": (FORGED_HEAD, "0102 0102", "0102 0103", 3),
    "copy-without-freeze": (FORGED_HEAD, "1234 0000", "1234 0001", 11),
    "configuration-that-equals-an-earlier-one": (FORGED_HEAD, "set 6 11 0 0", "set 6 11 2 2", 11),
    "configured-at-the-place-of-the-lock": (FORGED_HEAD, "2 7158", "2 7160", 11),
    "empty-reply": (FORGED_HEAD, REPLY, "1 1 -", 3),
    "reply-that-is-no-telegram": (FORGED_HEAD, REPLY, "1 1 deadbeef", 3),
    "reply-with-a-wrong-check-sequence": (FORGED_HEAD, REPLY, "1 1 6805056801050aaa540f16", 3),
    "reply-of-another-station": (FORGED_HEAD, REPLY, "1 1 6805056801060aaa540f16", 3),
    "reply-to-another-master": (FORGED_HEAD, REPLY, "1 1 6805056802050aaa540f16", 3),
    "reply-of-more-inputs-than-there-are": (FORGED_HEAD, REPLY, "1 1 6806066801050aaa54000e16", 3),
    "reply-of-another-configuration": (FORGED_HEAD, "6 2 1 e5", "6 2 1 680606680286083b2112fe16", 11),
    "diagnosis-of-five-octets": (FORGED_HEAD, "6 2 1 e5", "6 2 1 680909680286083c0000000000cc16", 11),
    "request-as-a-reply": (FORGED_HEAD, REPLY, "1 1 6805056801054aaa544e16", 3),
    "two-slaves-of-one-place": (FORGED_HEAD, "1 4 95", "1 7158 95", 1),
    "too-few-places-for-two-chk-cfg": (FORGED_HEAD, "1 4 95", "1 7159 95", 2),
    "halt-without-an-entry": (WAITING_HEAD, "line running none", "line halted 5", 2),
}


@pytest.fixture(name="check_forged")
def fixture_check_forged(run, tmp_path):
    """A function that checks a text of the line of the forged heads."""
    def call(text):
        (tmp_path / "rack.toml").write_text(FORGED_RACK, encoding="ascii")
        (tmp_path / "audit").write_text(text, encoding="ascii")
        return run("check", tmp_path / "rack.toml", tmp_path / "audit")[:2]

    return call


@pytest.mark.parametrize(("text", "count"), [(FORGED_HEAD, 7160), (WAITING_HEAD, 0)], ids=["held", "waiting"])
def test_head_that_was_not_forged(check_forged, text, count):
    assert check_forged(text) == (0, f"legal {count}\n")


@pytest.mark.parametrize(("text", "old", "new", "row"), FORGED.values(), ids=FORGED)
def test_forged_head(check_forged, text, old, new, row):
    assert text.count(old) == 1
    assert check_forged(text.replace(old, new)) == (1, f"not the policy {row}\n")
