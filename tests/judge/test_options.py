"""The options of `rackd judge`: masters, rules, retries, and words that are wrong."""
import pytest

from support.judging import FCB_1, FIRST, RULES, by, diag, prm

# Six times the same request to a slave that is not there.
RETRIES = [diag(9, fc=FIRST)] * 6
# Masters 1 and 2 each send Set_Prm to a slave that never answered Slave_Diag.
TWO_MASTERS = [prm(5), *by(2, prm(6))]


@pytest.mark.parametrize("options, findings", [
    ((), [("prm-before-diag", 1, 1), ("prm-before-diag", 2, 2)]),
    (("--master", "1"), [("prm-before-diag", 1, 1)]),
    (("--master", "2"), [("prm-before-diag", 2, 2)]),
], ids=["all", "master-1", "master-2"])
def test_master(text_of, options, findings):
    assert text_of(*TWO_MASTERS).findings(*options) == (findings, 1)


def test_no_such_master(text_of):
    assert text_of(*TWO_MASTERS).judge("--master", "3") == (2, "", "rackd: the line has no master 3\n")


@pytest.mark.parametrize("retries, place", [("0", 2), ("1", 3), ("3", 5), ("4", 6)])
def test_retries(text_of, retries, place):
    """One retry more than the option allows is a finding."""
    assert text_of(*RETRIES).findings("--retries", retries) == ([("retry-limit", 1, place)], 0)


def test_as_many_retries_as_allowed(text_of):
    assert text_of(*RETRIES).findings("--retries", "5") == ([], 0)


@pytest.mark.parametrize("options, places", [
    (("--without", "fcb-first"), [2]), (("--without", "fcb-first,retry-limit"), [2]), (("--without", "prm-before-diag"), [1]),
    (("--without", "fcb-first,prm-before-diag"), []), (("--rules", "fcb-first", "--without", "fcb-first"), []),
    (("--rules", "fcb-first,prm-before-diag", "--without", "fcb-first"), [2]),
], ids=str)
def test_without(text_of, options, places):
    found, _ = text_of(diag(9, fc=FCB_1), prm(5)).findings(*options)
    assert [place for _, _, place in found] == places


def test_all_rules_are_named(text_of):
    assert text_of().findings("--rules", ",".join(RULES)) == ([], 0)


@pytest.mark.parametrize("options", [
    ("--rules", "no-rule"), ("--rules", "fcb-first,"), ("--without", "no-rule"), ("--without", "fcb-first,"), ("--retries", "16"), ("--retries", "03"), ("--json", "--junit"),
    ("--master", "256"), ("--requests-at-least", "4294967296"), ("--exchanges-at-least", "-1"), ("--allow-untested", "1"),
    ("--requests-at-least", "1", "--requests-at-least", "1"),
], ids="-".join)
def test_wrong_words(text_of, options):
    done = text_of().judge_as_usual(*options)
    assert (done.status, done.output) == (2, "")
    assert done.errors


def test_a_name_of_no_rule_is_shown(text_of):
    assert "'no-rule'" in text_of().judge("--rules", "no-rule").errors


def test_help(run):
    done = run("judge", "--help")
    assert (done.status, done.errors) == (0, "")
    assert "Usage: rackd judge RACK AUDIT.. " in done.output
