"""The journal. Rules are those of docs/reference/policy.md, and sentences those of docs/reference/explain.md."""
import re

import pytest

from rackd import (RS, Change, Condition, Decoded, Hold, Journal, NoReply, Part, RackError, RackFault, Release, StationCount,
                   Verdict, WayCount, Why)
from rackd.explained import explained_of
from rackd.frames import sd1, sd2

from support.clients import wait_for
from support.package_runs import CFG, IDENT
from support.racks import rack as rack_text


@pytest.fixture
def filled(line, master_of):
    """A journal with one entry of each kind: nine of them."""
    one, two, operator = master_of(line, 1), master_of(line, 2), line.operator()
    one.set_prm(5, IDENT)
    one.chk_cfg(5, CFG)
    operator.tick(3)
    one.data_exchange(5, b"\x12\x34")
    with pytest.raises(RS):
        two.set_prm(5, IDENT)
    one.global_control()
    assert one.fdl_status(5)
    one.retries, one.timeout = 0, 0.05
    with pytest.raises(NoReply):
        one.slave_diag(9)
    # a request that gets no reply has come once it is in the journal
    wait_for(lambda: len(line.journal()) == 8)
    operator.halt()
    return line.journal()


def test_entries(filled):
    assert (filled.verdict, len(filled)) == ("legal", 9)
    assert [entry.place for entry in filled] == list(range(1, 10))
    assert [entry.rule for entry in filled] == ["Done", "Done", None, "Done", "NotHolder", None, "Status", "NoStation", None]
    assert [entry.to for entry in filled] == ["slave", "slave", "line", "slave", "slave", "all_slaves", "slave", "slave", "line"]
    assert [entry.time for entry in filled] == [None, None, None, 3, 3, 3, 3, 3, 3]


def test_typed_values_of_a_request(filled):
    lock = filled[0]
    assert (lock.sender, lock.master, lock.address) == ("master", 1, 5)
    # 85 81 6d 3d 3e 80 01 01 0b 80 a1 00, whose sum is worked out by hand
    assert lock.octets == bytes.fromhex("680c0c6885816d3d3e8001010b80a1009c16")
    event = lock.event
    assert (event.kind, event.frame, event.da, event.sa) == ("request", "SD2", 5, 1)
    assert (event.function, event.fcb, event.fcv, event.service) == (13, True, False, "Set_Prm")
    assert (event.dsap, event.ssap, event.data) == (61, 62, bytes.fromhex("8001010b80a100"))
    assert (event.units, event.point, event.on) == (None, None, None)
    assert event.decoded == Decoded(
        "parameters", "Lock_Req; watchdog off; min TSDR 11; ident 80A1; groups none; user parameters none")
    assert (lock.refused, lock.fault, lock.surprising, lock.releases) == (False, False, False, ())
    assert lock.changes == (Change(5, Condition("Wait_Prm", None), Condition("Wait_Cfg", 1)),)
    assert (lock.answer.outcome, lock.answer.octets, lock.answer.words) == ("done", b"\xe5", "SC, short acknowledgement")


def test_typed_values_of_an_operator(filled):
    tick, halt = filled[2], filled[8]
    assert (tick.sender, tick.master, tick.address, tick.octets) == ("operator", None, None, None)
    assert (tick.event.kind, tick.event.units, tick.event.words) == ("tick", 3, "3 units of time, 30 ms")
    assert (tick.answer.outcome, tick.answer.octets, tick.reason) == ("ticked", None, Why("Ticked"))
    assert (halt.answer.outcome, halt.reason["is_full"]) == ("halted", False)
    assert halt.releases == (Release(5, 1, "halted", None),)


def test_reply(filled):
    assert filled[3].answer.words == "inputs 00 00"
    assert filled[3].reason == Why("OutputsTaken")


def test_slaves_of_a_global_control(filled):
    act = {"clear": False, "unsync": False, "sync": "not_sent", "unfreeze": False, "freeze": "not_sent"}
    assert filled[5].slaves == (Part(5, "done", "Done", Why("Control", act), "done: no change."),)
    assert (filled[5].answer.outcome, filled[5].rule, filled[5].reason) == ("spread", None, None)


def test_summary(filled):
    explained = filled.explained
    assert explained.holds == (Hold(5, 1, 1, 9, "halted"),)
    assert explained.counts == (WayCount(1, "NoStation", 1, True), WayCount(1, "Status", 1, False), WayCount(1, "Done", 4, False),
                                WayCount(2, "NotHolder", 1, True))
    assert explained.stations[0] == StationCount("slave", 5, 1, 0, 0, {"NotHolder": 1}, {"halted": 1}, 3)
    assert [(poll.address, poll.station, poll.count) for poll in explained.polls] == [(5, "slave", 1)]
    assert explained.verdict == Verdict("legal", entries=9)


def test_lines_of_another_version():
    with pytest.raises(RackError, match="not of version 2"):
        explained_of('{"verdict":"legal","entries":1}\n')


def test_refused(filled):
    refused = filled.refused()
    assert [(entry.place, entry.master, entry.rule, entry.refused) for entry in refused] == [
        (5, 2, "NotHolder", True), (8, 1, "NoStation", True)]
    assert "refused: NotHolder. Master 1 holds slave 5 since entry 1." in refused[0].sentence
    assert refused[0].reason == Why("NotHolder", {"holder": 1, "since": 1})


@pytest.mark.parametrize("options, places", [
    pytest.param({}, [1, 2, 3, 4, 5, 6, 7, 8, 9], id="all"), pytest.param({"faults": True}, [5, 8, 9], id="faults"),
    pytest.param({"refused": True}, [5, 8], id="refused"), pytest.param({"first": 2, "last": 4}, [2, 3, 4], id="from-and-to"),
    pytest.param({"slave": 5, "last": 5}, [1, 2, 4, 5], id="slave"), pytest.param({"master": 2}, [5], id="master"),
    pytest.param({"summary": True}, [], id="summary"),
])
def test_explain(filled, options, places):
    text = filled.explain(**options)
    assert [int(row[:5]) for row in text.splitlines() if row[:5].strip().isdigit()] == places
    assert text.endswith("\nlegal 9\n")


def test_a_journal_stays_as_it_was(line):
    line.operator().tick()
    journal = line.journal()
    line.operator().tick()
    assert (len(journal), len(line.journal())) == (1, 2)
    assert journal.explain().endswith("legal 1\n")


def test_option_that_explain_refuses(line):
    with pytest.raises(RackFault) as raised:
        line.journal().explain(slave=99)
    assert (raised.value.status, raised.value.row) == (2, "rackd: the line has no slave 99")


@pytest.mark.parametrize("text, verdict", [
    pytest.param(b"rack-audit 2 line 1\n1 tick 1 | none | released\n2 tick 1 | no", "legal", id="last-row-is-not-whole"),
    pytest.param(b"rack-audit 2 line 1\n1 tick 1 | none | released\n2 tick 1 | none | released 5\n", "not the policy",
                 id="second-entry-is-not-the-policy"),
])
def test_journal_of_a_text(rack, text, verdict):
    journal = Journal(rack.program, rack.text, text)
    assert (journal.verdict, len(journal)) == (verdict, 1)


@pytest.fixture
def line_without_its_first_part(rack_factory):
    """Line 1 of a rack that keeps two parts, after the third has begun: the first part of its journal is deleted."""
    rack = rack_factory(rack_text(), options=["--endless", "--part", "1", "--keep", "2"])
    # nobody has address 50, and the rows of these telegrams have some 540 octets
    silent = sd2(50, 1, 0x6D, bytes(240)) * 50
    with rack.line(1).port(1) as port:
        while not (rack.audit / "line-1-1.000003.audit").exists():
            port.write(silent + sd1(5, 1, 0x49))
            assert len(port.read(6)) == 6
    wait_for(lambda: not (rack.audit / "line-1-1.000001.audit").exists())
    return rack.line(1)


def test_parts_of_an_endless_line(line_without_its_first_part, monkeypatch):
    line = line_without_its_first_part
    files = line.files()
    newest, gone = files[-1], files[0].with_name("line-1-1.000001.audit")
    assert [path.name for path in files] == ["line-1-1.000002.audit", "line-1-1.000003.audit"]
    texts = [path.read_bytes() for path in files]
    before, between = (int(text.split(b"\n")[0].removeprefix(b"rack-audit 3 line 1 from ")) for text in texts)
    journal = line.journal()
    rows = len(re.findall(rb"^[0-9]", b"".join(texts), re.MULTILINE))
    assert (journal.verdict, len(journal), journal[0].place) == ("legal", rows, before + 1)
    # the judge needs all entries from the first one on
    with pytest.raises(RackFault, match="rackd judge cannot read this journal: bad line") as raised:
        journal.judge()
    assert (raised.value.status, raised.value.row.split(";")[0]) == (1, "  row 1: the head of a later part")
    # a part that is deleted before it is read
    found = [[gone, *files], files]
    with monkeypatch.context() as patched:
        patched.setattr(line, "files", lambda: found.pop(0))
        assert len(line.journal()) == rows
    assert not found
    # the head of a part that has just begun is not whole
    newest.write_bytes(texts[1][:100])
    assert [entry.place for entry in line.journal()] == list(range(before + 1, between + 1))
    newest.write_bytes(texts[1])
