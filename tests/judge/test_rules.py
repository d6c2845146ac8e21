"""The rules of `rackd judge`: each is broken by a master that is changed in one way, and by no other."""
from typing import NamedTuple

import pytest

from rackd.master import SDN

from support.judging import (FCB_0, FCB_1, FIRST, ROWS, RULES, WARNINGS, Request, bring_up, by, cfg, control, diag, exchange, get_cfg,
                             prm, status)
from support.rule_table import CHAPTER, LIST, SOURCE, TABLE, list_of, rows_of_source, table_of

# A clean master class 1: slave 5 is in data exchange behind it, at place 5. Each row of BROKEN changes this one thing.
CLEAN = [*bring_up(), exchange()]
# The watchdog of 100 ms is 2 times 5 times 10 ms, and a tick of a script is 10 ms.
WATCHED = bring_up(status=0x88, watchdog=(2, 5))
# Slave 5 is lost at place 9, though the gaps of its master are short: Get_Cfg does not restart the watchdog.
LOST = [*WATCHED, exchange(), "tick 5", get_cfg(), "tick 5", exchange()]
# A request to a slave that is not there. Each further one is a retry.
ABSENT = diag(9, fc=FIRST)
LATER = diag(9, fc=FCB_1)
# Tokens of master 1: to itself, and to master 2. A short acknowledgement, and a response with the source of master 1.
OWN_TOKEN, TOKEN = "m 1 dc 01 01", "m 1 dc 02 01"
SHORT_ACK, RESPONSE = "m 1 e5", "m 1 10 05 01 08 0e 16"
# Function codes of SDA, which no service of DP uses.
SDA_LOW, SDA_HIGH = 0x43, 0x45


class Broken(NamedTuple):
    """A script that breaks one rule, and the places of the findings. `master` is who breaks it."""

    rule: str
    script: list
    places: list
    master: int = 1


BROKEN = [
    Broken("fcb-repeated", [*CLEAN, exchange(b"\x56\x78", fc=FCB_1)], [6]),
    Broken("fcb-not-alternated", [*CLEAN, exchange(fc=FCB_1)], [6]),
    Broken("fcb-first", [diag(fc=FCB_0), prm(), cfg(), diag(), exchange()], [1]),
    # Each of its requests has FCV 0; only the first may.
    Broken("fcv-not-set", [step._replace(fc=FIRST) for step in CLEAN], [2, 3, 4, 5]),
    Broken("fcb-not-allowed", [*CLEAN, status(5, fc=0x69), control(0, fc=0x56)], [6, 7]),
    Broken("retry-limit", [ABSENT] * 6, [5]),
    Broken("prm-before-diag", [prm(), cfg(), diag(), exchange()], [1]),
    Broken("prm-without-lock", [diag(), prm(status=0)], [2]),
    Broken("cfg-before-prm", [diag(), cfg()], [2]),
    Broken("exchange-before-ready", [diag(), prm(), exchange(), exchange()], [3, 4]),
    Broken("exchange-without-diag", [diag(), prm(), cfg(), exchange(), exchange()], [4]),
    Broken("exchange-after-rs", [*LOST, exchange(), exchange()], [10, 11]),
    Broken("exchange-of-other", [*bring_up(), *by(2, diag(), exchange())], [6], master=2),
    Broken("length-repeated", [*bring_up(), exchange(b"\x01"), exchange(), exchange(b"\x02"), exchange(b"\x03")], [7, 8]),
    Broken("diag-not-read", [*bring_up(), "diag 5 e 0407", *[exchange()] * 6], [10]),
    # Set_Prm without bit 7 of DA and SA: its points are the first two octets of outputs, of which slave 5 has two.
    Broken("extension-missing", [*CLEAN, exchange(b"\x3d\x3e\x80\0\0\x0b\x80\xa1\0")], [6]),
    Broken("outputs-in-clear", [*CLEAN, control(0x02), exchange(b"\0\0"), exchange(b"\0\1"), control(0), exchange()], [8]),
    Broken("prm-of-other", [*bring_up(), *by(2, diag(), prm())], [6], master=2),
    Broken("prm-short", [diag(), Request(5, 61, b"\x80\0\0\x0b\x80\xa1")], [2]),
    Broken("prm-reserved", [diag(), prm(status=0x81), diag(), prm(status=0x82), diag(), prm(status=0x84)], [2, 4, 6]),
    Broken("lock-and-unlock", [*CLEAN, prm(status=0xC0)], [6]),
    Broken("min-tsdr", [diag(), prm(min_tsdr=10), cfg(), diag(), exchange()], [2]),
    Broken("watchdog-zero", [diag(), prm(status=0x88, watchdog=(0, 5)), diag(), prm(status=0x88, watchdog=(5, 0))], [2, 4]),
    # Get_Cfg ends a gap as long as the watchdog, and its reply does not show that the slave was lost.
    Broken("watchdog-short", [*WATCHED, exchange(), "tick 10", get_cfg(), exchange()], [7]),
    Broken("group-not-set", [*bring_up(group=1), control(0x04, group=1), control(0x04, group=2)], [6]),
    Broken("control-both", [*bring_up(), control(0x0C), control(0x30)], [5, 6]),
    Broken("control-reserved", [*bring_up(), control(0x01), control(0x40), control(0x80)], [5, 6, 7]),
    Broken("control-length", [*bring_up(), *[Request(127, 58, octets, SDN) for octets in (b"", b"\0", b"\0\0\0")]], [5, 6, 7]),
    Broken("control-not-asked", [*bring_up(), control(0x08), control(0x20)], [5, 6]),
    Broken("control-with-srd", [*CLEAN, Request(5, 58, b"\0\0")], [6]),
    Broken("sdn-needs-reply", [prm(fc=0x44)], [1]),
    Broken("broadcast-needs-reply", [status(127)], [1]),
    # A slave answers SDA by RS. It is not asked for a service by it, and counts no frame by it.
    Broken("sda-not-allowed", [*CLEAN, exchange(fc=SDA_LOW), diag(fc=SDA_HIGH)], [6, 7]),
    Broken("unknown-point", [Request(5, 51, b"\x01")], [1]),
    Broken("source-point", [diag(), get_cfg()._replace(ssap=None), get_cfg()._replace(ssap=61)], [2, 3]),
    Broken("octets-not-allowed", [Request(5, point, b"\1") for point in (60, 59, 56, 57)], [1, 2, 3, 4]),
    # Nobody has address 9, and slave 6 has not answered yet.
    Broken("token-to-slave", ["m 1 dc 05 01", *CLEAN, "m 1 dc 05 01", status(9), "m 1 dc 09 01", "m 1 dc 06 01"], [7]),
    # Tokens to itself are right.
    Broken("no-request", [*[OWN_TOKEN] * 5, *[SHORT_ACK] * 3, RESPONSE, SHORT_ACK], [9]),
]

# What several rules need: other retries, other stages of a slave.
FURTHER = {
    # Retries with FCV 1 count also after a tick and after a token is passed on.
    "retries with FCV 1": (
        [*[LATER] * 3, "tick 1", LATER, TOKEN, LATER],
        [("fcb-first", 1, 1), ("retry-limit", 1, 7)]),
    # A slave repeats its answer also to the FCB of a first request, which has FCV 0.
    "the FCB of a first request": ([diag(), prm(fc=FCB_1)], [("fcb-repeated", 1, 2)]),
    "no rule is broken": ([*WATCHED, exchange()], []),
    # The first SRD has FCV 0, the same FCB again is no new telegram, and FDL status has none.
    "frame count bits": (
        [diag(fc=FCB_0), diag(fc=FCB_0), prm(status=0x88, watchdog=(2, 5), fc=FCB_0), status(5, fc=0x69)],
        [("fcb-first", 1, 1), ("fcb-not-alternated", 1, 2), ("fcb-repeated", 1, 3), ("fcb-not-allowed", 1, 4)]),
    # Set_Prm at first; Data_Exchange without a diagnosis; after an Unlock_Req Chk_Cfg without parameters, and Data_Exchange.
    "the order of the bring-up": (
        [prm(status=0x88, watchdog=(2, 5)), cfg(), exchange(), prm(status=0x48, watchdog=(2, 5)), cfg(), exchange()],
        [("prm-before-diag", 1, 1), ("exchange-without-diag", 1, 3), ("cfg-before-prm", 1, 5), ("exchange-before-ready", 1, 6)]),
    # Each gap counts at the request that ends it, whatever the answer.
    "two gaps as long as the watchdog": (
        [*WATCHED, exchange(), "tick 10", get_cfg(), "tick 10", exchange(), exchange()],
        [("watchdog-short", 1, 7), ("watchdog-short", 1, 9), ("exchange-after-rs", 1, 10)]),
    "a gap as long as the watchdog after a Global_Control": (
        [*WATCHED, exchange(), "tick 9", control(0), "tick 10", exchange(), exchange()],
        [("watchdog-short", 1, 9), ("exchange-after-rs", 1, 10)]),
    "a slave of another master": (
        [*by(2, *bring_up()), diag(), prm(status=0x88, watchdog=(2, 5), min_tsdr=10), exchange()],
        [("prm-of-other", 1, 6), ("min-tsdr", 1, 6), ("exchange-of-other", 1, 7)]),
    # A wrong length counts from the second time on, also with a right one between, until Set_Prm is acknowledged.
    "wrong lengths": (
        [*WATCHED, exchange(b"\x12"), exchange(), exchange(b"\x12"), exchange(b"\x12"), *WATCHED[1:], exchange(b"\x12")],
        [("length-repeated", 1, 7), ("length-repeated", 1, 8)]),
    "a group that no slave has, and both of a pair": (
        [*bring_up(group=1), control(0x0C, group=2)], [("group-not-set", 1, 5), ("control-both", 1, 5)]),
    # Points 54 and 55 are points of DP-V0; of the functions between masters some are SDN.
    "telegrams on their own": (
        [control(0x41), status(127), Request(5, 51), Request(5, 54, b"\x01"), Request(5, 55, b"\x07\x80\xa1\x00"),
         Request(5, 54, b"\x01", fc=0x44), Request(5, 55, b"\x01", fc=0x44), Request(5, 61, fc=0x44)],
        [("control-reserved", 1, 1), ("broadcast-needs-reply", 1, 2), ("unknown-point", 1, 3), ("sdn-needs-reply", 1, 7),
         ("sdn-needs-reply", 1, 8)]),
    # A token that is passed on is no entry of the hundred, and the fourth of these is reported alone.
    "stray octets and tokens that are passed on": (
        [SHORT_ACK, TOKEN, SHORT_ACK, RESPONSE, TOKEN, SHORT_ACK, SHORT_ACK, TOKEN], [("no-request", 1, 6)]),
    # Slave 9 is not there, so it has not taken the FCB of the request before.
    "the FCB of a request without an answer": (
        [diag(9, fc=FIRST), get_cfg(9)._replace(fc=FCB_1), Request(9, 56, fc=FCB_1)], [("fcb-first", 1, 2)]),
    # An SRD to all stations is reported as that, whatever its frame count bit.
    "SRD to all stations": (
        [diag(127, fc=FCB_1), diag(127, fc=FCB_1), exchange(slave=127, fc=FCB_1)],
        [("broadcast-needs-reply", 1, place) for place in (1, 2, 3)]),
    # Each token to a slave is reported, also after a refusal; those of another master count for that one only.
    "tokens to slaves": (
        [get_cfg(), "m 2 dc 05 02", "m 1 dc 05 01", "m 1 dc 05 01", *by(2, status(6)), "m 2 dc 05 02"],
        [("token-to-slave", 1, 3), ("token-to-slave", 1, 4)]),
    # To all stations it has no reply as well.
    "SDA to all stations": (
        [Request(127, 58, b"\0\0", fc=SDA_LOW)], [("broadcast-needs-reply", 1, 1), ("sda-not-allowed", 1, 1)]),
    # With FCV 0 the same request is a new one after a tick, and after a token is passed on.
    "retries with FCV 0": ([*[ABSENT] * 6, "tick 10", *[ABSENT] * 4, TOKEN, ABSENT], [("retry-limit", 1, 5)]),
    "retries with FCV 1 after ticks and a token": (
        [LATER, "tick 10", LATER, TOKEN, LATER, LATER, "tick 10", LATER, LATER], [("fcb-first", 1, 1), ("retry-limit", 1, 8)]),
    # A slave can be lost before its first Data_Exchange.
    "a slave that was ready is lost": (
        [*WATCHED, "tick 5", get_cfg(), "tick 5", exchange(), exchange()], [("exchange-after-rs", 1, 9)]),
}


each_rule = pytest.mark.parametrize("broken", BROKEN, ids=[broken.rule for broken in BROKEN])


def findings_of(broken):
    """Returns the findings that a row of the table has to have, and the status."""
    return [(broken.rule, broken.master, place) for place in broken.places], 0 if broken.rule in WARNINGS else 1


def test_each_rule_has_a_case():
    assert [broken.rule for broken in BROKEN] == RULES


def test_table_of_the_chapter_is_that_of_the_source():
    """`python3 tests/support/rule_table.py` writes the table."""
    made = table_of(rows_of_source(SOURCE.read_text(encoding="utf-8")))
    assert TABLE.findall(CHAPTER.read_text(encoding="utf-8")) == [made]


def test_help_lists_the_rules(run):
    assert LIST.findall(run("judge", "--help").output) == [list_of(ROWS)]


@each_rule
def test_words_of_a_rule(text_of, broken):
    """A finding in JSON has the severity, the source and the text of docs/reference/judge.md."""
    row = next(row for row in ROWS if row.name == broken.rule)
    found = [keys for keys in text_of(*broken.script).rows_of_json() if "place" in keys]
    assert {(keys["rule"], keys["severity"], keys["standard"], keys["text"]) for keys in found} == {tuple(row)}


@each_rule
def test_rule(text_of, broken):
    assert text_of(*broken.script).findings() == findings_of(broken)


@each_rule
def test_rule_only(text_of, broken):
    """The option --rules with this rule keeps its findings."""
    assert text_of(*broken.script).findings("--rules", broken.rule) == findings_of(broken)


@each_rule
def test_rule_left_out(text_of, broken):
    """The option --rules with all other rules, and the option --without with this rule, drop its findings."""
    others = ",".join(rule for rule in RULES if rule != broken.rule)
    text = text_of(*broken.script)
    assert text.findings("--rules", others) == ([], 0)
    assert text.findings("--without", broken.rule) == ([], 0)


@pytest.mark.parametrize("script, findings", FURTHER.values(), ids=[name.replace(" ", "-") for name in FURTHER])
def test_further_cases_of_rules(text_of, script, findings):
    has_error = any(rule not in WARNINGS for rule, _, _ in findings)
    assert text_of(*script).findings() == (findings, 1 if has_error else 0)
