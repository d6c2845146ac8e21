"""The forms of what `rackd judge` writes: rows, JSON and JUnit XML of one text with two findings."""
import xml.etree.ElementTree as xml

import pytest

from support.judging import FCB_1, RULES, Request, bring_up, exchange, prm

FOUND = [*bring_up(), exchange(), exchange(b"\x56\x78", fc=FCB_1), Request(5, 51, b"\x01")]

ROWS = """\
place 6 master 1 slave 5 fcb-repeated: the FCB of the request before to this slave, with another telegram
  68 05 05 68 05 01 7d 56 78 51 16
  before 68 05 05 68 05 01 7d 12 34 c9 16
place 7 master 1 slave 5 unknown-point: a point that DP-V0 does not have
  68 06 06 68 85 81 5d 33 3e 01 d5 16
findings
  master 1 fcb-repeated error 1, first at place 6
  master 1 unknown-point warning 1, first at place 7
legal 7
"""
# What the rows of JSON have of each of the two rules.
REPEATED = {"rule": "fcb-repeated", "severity": "error", "standard": "IEC 61158-4-3, frame count bit",
            "text": "the FCB of the request before to this slave, with another telegram"}
UNKNOWN = {"rule": "unknown-point", "severity": "warning", "standard": "IEC 61158-6-3, service access points",
           "text": "a point that DP-V0 does not have"}


@pytest.fixture
def text(text_of):
    return text_of(*FOUND)


def test_rows(text):
    assert text.judge() == (1, ROWS, "")


def test_json_of_findings(text):
    """Only a finding of fcb-repeated has the telegram before."""
    assert text.rows_of_json()[:2] == [
        {"place": 6, "master": 1, "slave": 5, **REPEATED, "octets": "6805056805017d56785116",
         "before": "6805056805017d1234c916"},
        {"place": 7, "master": 1, "slave": 5, **UNKNOWN, "octets": "6806066885815d333e01d516"}]


def test_json_of_the_summary(text):
    assert text.rows_of_json()[2:4] == [
        {"summary": {"master": 1, **REPEATED, "count": 1, "first": 6}},
        {"summary": {"master": 1, **UNKNOWN, "count": 1, "first": 7}}]


def test_json_of_the_verdict(text):
    assert text.rows_of_json()[4:] == [{"verdict": "legal", "entries": 7}]
    assert text.judge("--json").status == 1


def test_json_of_receivers(text_of):
    """A finding of a telegram to all slaves has slave 127, and one of octets that are no request has none."""
    rows = text_of(Request(127, fc=0x49), *["m 1 e5"] * 4).rows_of_json()
    findings = [(row["rule"], row["slave"]) for row in rows if "place" in row]
    assert findings == [("broadcast-needs-reply", 127), ("no-request", None)]


def test_junit(text):
    """There are two test cases for the text, and for each master one and one for each rule. An error is a failure."""
    done = text.judge("--junit")
    suite = xml.fromstring(done.output.encode())
    cases = [(case.get("classname"), case.get("name")) for case in suite.findall("testcase")]
    failures = [(case.get("classname"), case.get("name")) for case in suite.findall("testcase[failure]")]
    assert (done.status, suite.tag) == (1, "testsuite")
    assert cases == [
        ("text", "legal"), ("text", "tested"), ("master 1", "tested"), ("master 2", "tested"),
        *(("master 1", rule) for rule in RULES), *(("master 2", rule) for rule in RULES)]
    assert (suite.get("tests"), suite.get("failures"), suite.get("skipped")) == (str(4 + 2 * len(RULES)), "1", "0")
    assert failures == [("master 1", "fcb-repeated")]


def test_junit_of_a_warning(text):
    """A warning is no failure, but output."""
    suite = xml.fromstring(text.judge("--junit").output.encode())
    warnings = [(case.get("classname"), case.get("name")) for case in suite.findall("testcase[system-out]")]
    assert warnings == [("master 1", "unknown-point")]


# Rows and text of one finding of a telegram to all slaves, behind six tokens that are passed on.
TO_ALL = [*["m 1 dc 02 01"] * 6, Request(127, fc=0x49)]
TO_ALL_ROWS = """\
place 7 master 1 all slaves broadcast-needs-reply: a function with a reply, to all stations
  10 7f 01 49 c9 16
"""
TO_ALL_JSON = (
    '{"place":7,"master":1,"slave":127,"rule":"broadcast-needs-reply","severity":"error",'
    '"standard":"IEC 61158-4-3, function code of a request","text":"a function with a reply, to all stations",'
    '"octets":"107f0149c916"}\n')
REPEATED_JSON = (
    '{"place":6,"master":1,"slave":5,"rule":"fcb-repeated","severity":"error","standard":"IEC 61158-4-3, frame count bit",'
    '"text":"the FCB of the request before to this slave, with another telegram","octets":"6805056805017d56785116",'
    '"before":"6805056805017d1234c916"}\n')
# What one rule has of a Set_Prm without a Slave_Diag before it: rows, JSON and JUnit XML.
ONE_RULE = "--rules", "prm-before-diag"
ONE_RULE_ROWS = "findings\n  master 1 prm-before-diag error 1, first at place 1\nlegal 1\n"
ONE_RULE_JSON = (
    '{"summary":{"master":1,"rule":"prm-before-diag","severity":"error","standard":"IEC 61158-6-3, bring-up of a slave",'
    '"text":"Set_Prm, though this slave never answered Slave_Diag","count":1,"first":1}}\n')
ONE_RULE_XML = """\
<?xml version="1.0" encoding="UTF-8"?>
<testsuite name="rackd judge" tests="6" failures="1" skipped="0">
<testcase classname="text" name="legal"></testcase>
<testcase classname="text" name="tested"></testcase>
<testcase classname="master 1" name="tested"></testcase>
<testcase classname="master 2" name="tested"></testcase>
<testcase classname="master 1" name="prm-before-diag"><failure type="error" \
message="1, first at place 1">Set_Prm, though this slave never answered Slave_Diag</failure></testcase>
<testcase classname="master 2" name="prm-before-diag"></testcase>
</testsuite>
"""


def test_octets_of_findings(text_of):
    """Rows and JSON of a finding, to the octet."""
    to_all = text_of(*TO_ALL)
    assert to_all.judge().output.startswith(TO_ALL_ROWS)
    assert to_all.judge("--json").output.startswith(TO_ALL_JSON)


def test_octets_of_a_finding_with_both_telegrams(text):
    assert text.judge("--json").output.startswith(REPEATED_JSON)


def test_octets_of_a_summary(text_of):
    """The summary of one rule with one finding, in each form, and the status of that rule and of another."""
    one = text_of(prm(status=0x88, watchdog=(2, 5)))
    assert one.judge(*ONE_RULE).output.endswith(ONE_RULE_ROWS)
    assert ONE_RULE_JSON in one.judge("--json", *ONE_RULE).output
    assert one.judge("--junit", *ONE_RULE) == (1, ONE_RULE_XML, "")
    assert one.judge("--rules", "fcb-first").status == 0
