"""`Journal.judge` and the findings that it returns. Rules and texts are those of docs/reference/judge.md."""
import pytest

from rackd import Finding, Journal, RackFault, Untested, frames
from rackd.master import MASTER

from support.telegrams import FIRST, chk_cfg, data_exchange, global_control, set_prm, slave_diag

FCB_0, FCB_1 = 0x5D, 0x7D
# A point that DP-V0 does not have.
UNKNOWN = 51
# The masters of the line.
MASTERS = [1, 2, 3]
# Master 1 brings slave 5 up and exchanges data. Its sixth and its seventh telegram each break a rule.
TWO_FAULTS = [
    slave_diag(1, 5), set_prm(1, 5, FCB_0), chk_cfg(1, 5, FCB_1), slave_diag(1, 5, FCB_0),
    data_exchange(1, 5, FCB_1, b"\x12\x34"), data_exchange(1, 5, FCB_1, b"\x56\x78"),
    frames.request(5, 1, FCB_0, b"\x01", UNKNOWN, MASTER),
]
REPEATED = Finding(
    place=6, master=1, slave=5, rule="fcb-repeated", severity="error", standard="IEC 61158-4-3, frame count bit",
    text="the FCB of the request before to this slave, with another telegram", octets=bytes.fromhex("6805056805017d56785116"),
    before=bytes.fromhex("6805056805017d1234c916"))
NO_POINT = Finding(
    place=7, master=1, slave=5, rule="unknown-point", severity="warning", standard="IEC 61158-6-3, service access points",
    text="a point that DP-V0 does not have", octets=bytes.fromhex("6806066885815d333e01d516"), before=None)


@pytest.fixture
def journal_of(line, master_of):
    """A function that returns the journal of line 1 after a master has sent these telegrams."""
    def send(*telegrams, address=1):
        master = master_of(line, address)
        for telegram in telegrams:
            master._send(telegram)
        # the reply of slave 7 comes once all before it are in the journal; it is no request that can break a rule
        assert master.fdl_status(7)
        return line.journal()

    return send


def test_findings(journal_of):
    assert journal_of(*TWO_FAULTS).judge(allow_untested=True) == [REPEATED, NO_POINT]


def test_right_master(line, master_of):
    master = master_of(line)
    master.bring_up(5, 0x80A1, b"\x21\x11")
    for outputs in b"\x12\x34", b"\x56\x78":
        master.data_exchange(5, outputs)
    assert line.journal().judge(master=1) == []


@pytest.mark.parametrize("telegrams, rule, slave", [
    pytest.param([frames.request(127, 1, 0x49)], "broadcast-needs-reply", 127, id="all-slaves"),
    pytest.param([b"\xe5"] * 4, "no-request", None, id="no-request"),
])
def test_receivers(journal_of, telegrams, rule, slave):
    assert [(finding.rule, finding.slave) for finding in journal_of(*telegrams).judge(allow_untested=True)] == [(rule, slave)]


def test_one_master(journal_of):
    journal_of(*TWO_FAULTS)
    journal = journal_of(global_control(2, command=0x0C), address=2)
    assert [(finding.master, finding.rule) for finding in journal.judge(allow_untested=True)] == [
        (1, "fcb-repeated"), (1, "unknown-point"), (2, "control-both")]
    assert [finding.rule for finding in journal.judge(master=2, allow_untested=True)] == ["control-both"]
    assert journal.judge(master=1) == [REPEATED, NO_POINT]
    assert journal.judge(master=3, allow_untested=True) == []


@pytest.mark.parametrize("rules, found", [
    (["fcb-repeated"], [REPEATED]), (["unknown-point"], [NO_POINT]), (["unknown-point", "fcb-repeated"], [REPEATED, NO_POINT]),
    (["min-tsdr", "fcb-first"], []), ((), [REPEATED, NO_POINT]),
])
def test_rules(journal_of, rules, found):
    assert journal_of(*TWO_FAULTS).judge(rules=rules, allow_untested=True) == found


@pytest.mark.parametrize("retries, places", [(0, [2]), (1, [3]), (3, [5]), (None, [5]), (4, [6]), (5, [])])
def test_retries(journal_of, retries, places):
    """Nobody has address 9, and the same telegram is sent six times."""
    findings = journal_of(*[slave_diag(1, 9, FIRST)] * 6).judge(retries=retries, allow_untested=True)
    assert [(finding.rule, finding.place) for finding in findings] == [("retry-limit", place) for place in places]


def test_all_options_at_once(journal_of):
    journal = journal_of(*[slave_diag(1, 9, FIRST)] * 6, *TWO_FAULTS)
    findings = journal.judge(master=1, rules=["retry-limit", "unknown-point"], retries=1, exchanges_at_least=1)
    assert [(finding.rule, finding.place) for finding in findings] == [("retry-limit", 3), ("unknown-point", 13)]
    assert journal.judge(master=2, rules=["retry-limit"], retries=1, allow_untested=True) == []


@pytest.mark.parametrize("options, words", [
    pytest.param({"rules": ["no-rule"]}, "no-rule", id="no-such-rule"),
    pytest.param({"retries": 16}, "16", id="too-many-retries"),
    pytest.param({"master": 256}, "256", id="no-address"),
    pytest.param({"requests_at_least": -1}, "-1", id="negative"),
    pytest.param({"exchanges_at_least": 2 ** 32}, "4294967296", id="too-many-exchanges"),
])
def test_options_that_judge_refuses(line, options, words):
    with pytest.raises(RackFault, match="rackd judge ended with status 2") as raised:
        line.journal().judge(**options)
    assert raised.value.status == 2
    assert words in raised.value.row


def requests(master, count, least=1):
    return Untested(master=master, requests=count, exchanges=None, at_least=least)


def exchanges(count, least=1):
    return Untested(master=None, requests=None, exchanges=count, at_least=least)


def test_journal_of_nothing(line):
    """Nothing was tested, so the list is not empty."""
    journal = line.journal()
    assert journal.judge() == [*(requests(master, 0) for master in MASTERS), exchanges(0)]
    assert journal.judge(master=2) == [requests(2, 0), exchanges(0)]
    assert journal.judge(allow_untested=True) == []
    assert journal.judge(requests_at_least=0, exchanges_at_least=0) == []
    assert {found.rule for found in journal.judge()} == {"untested"}


def test_numbers_that_are_tested(journal_of):
    """The master sends the seven telegrams and an FDL status. Its first Data_Exchange is answered, the second is a repeat."""
    journal = journal_of(*TWO_FAULTS)
    assert journal.judge(master=1) == [REPEATED, NO_POINT]
    assert journal.judge(master=1, rules=["min-tsdr"], requests_at_least=8, exchanges_at_least=1) == []
    assert journal.judge(master=1, rules=["min-tsdr"], requests_at_least=9, exchanges_at_least=2) == [requests(1, 8, 9), exchanges(1, 2)]
    assert journal.judge(rules=["min-tsdr"]) == [requests(master, 0) for master in MASTERS if master != 1]


def test_journal_that_is_not_legal(rack):
    journal = Journal(rack.program, rack.text, b"rack-audit 2 line 1\n1 tick 1 | none | released\n2 tick 1 | none | released 5\n")
    with pytest.raises(RackFault, match="rackd judge cannot read this journal: not the policy"):
        journal.judge()
