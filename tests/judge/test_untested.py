"""Masters that did too little for a verdict: `rackd judge` reports what is untested."""
import json
import xml.etree.ElementTree as xml

import pytest

from support.judging import FCB_0, FCB_1, bring_up, by, diag, exchange, prm, status

TOKEN = "m 1 dc 02 01"
TESTED = [*bring_up(), exchange(), *by(2, status(9))]


def rows_of(done):
    """Returns the rows of a summary: those between `findings` and the verdict."""
    return done.output[done.output.index("findings\n"):].splitlines()[1:-1]


def requests(master, count, least=1):
    return f"  master {master} untested: requests {count}, at least {least}"


def exchanges(count, least=1):
    return f"  untested: exchanges {count}, at least {least}"


@pytest.mark.parametrize("script, rows", [
    ([], [requests(1, 0), requests(2, 0), exchanges(0)]),
    (["tick 5", TOKEN, "m 2 e5"], [requests(1, 0), requests(2, 0), exchanges(0)]),
    ([status(9)], [requests(2, 0), exchanges(0)]),
    ([*bring_up(), *by(2, diag())], [exchanges(0)]),
    ([*bring_up(), exchange()], [requests(2, 0)]),
    (by(2, *bring_up(), exchange()), [requests(1, 0)]),
    (TESTED, []),
], ids=["no-entries", "no-requests", "one-request", "no-exchange", "one-master", "the-other-master", "tested"])
def test_summary(text_of, script, rows):
    done = text_of(*script).judge_as_usual()
    assert (rows_of(done), done.status) == (rows, 1 if rows else 0)


@pytest.mark.parametrize("script, count", [
    # Wait_Prm refuses outputs by RS; they also come too early, which is a finding.
    ([exchange(), *by(2, status(9))], 0),
    # The second one has the octets and the FCB of the first, so the slave repeats its reply.
    ([*bring_up(), exchange(fc=FCB_1), exchange(fc=FCB_1), exchange(fc=FCB_0)], 2),
    # Slave 6 has no inputs, and acknowledges.
    ([*bring_up(6), exchange(b"\x07", slave=6)], 1),
    # The reply is DH, since there is a diagnosis to read.
    ([*bring_up(), "diag 5 e 0407", exchange()], 1),
    # Each master has one.
    ([*bring_up(), exchange(), *by(2, *bring_up(6), exchange(b"\x07", slave=6))], 2),
], ids=["refused", "repeated", "acknowledged", "with-high-priority", "of-two-masters"])
def test_answered_exchanges(text_of, script, count):
    """One more than there are is too many."""
    text = text_of(*script)
    for least, rows in ((count, []), (count + 1, [exchanges(count, count + 1)])):
        found = rows_of(text.judge_as_usual("--requests-at-least", "0", "--exchanges-at-least", str(least), "--rules", "min-tsdr"))
        assert found == rows


def test_requests_at_least(text_of):
    """Tokens, and octets that are no request, are not counted; a request that is sent again is."""
    text = text_of(*TESTED, TOKEN, "m 1 e5", status(9), status(9))
    assert rows_of(text.judge_as_usual("--requests-at-least", "7")) == [requests(2, 1, 7)]
    assert rows_of(text.judge_as_usual("--requests-at-least", "8")) == [requests(1, 7, 8), requests(2, 1, 8)]


def test_only_one_master(text_of):
    """What a master did that is not judged counts for nothing."""
    text = text_of(*TESTED)
    assert (rows_of(text.judge_as_usual("--master", "1")), rows_of(text.judge_as_usual("--master", "2"))) == ([], [exchanges(0)])


def test_allow_untested(text_of):
    """The summary is the same, and only the status is another one, if no rule is broken."""
    text = text_of()
    usual, allowed = text.judge_as_usual(), text.judge_as_usual("--allow-untested")
    assert (usual.status, allowed.status, allowed.output) == (1, 0, usual.output)
    assert text_of(prm()).judge_as_usual("--allow-untested").status == 1


def test_text_that_is_not_legal(text_of):
    text = text_of()
    text.path.write_text("hello\n", encoding="ascii")
    assert text.judge_as_usual().output == "findings\nbad line 1\n"


def test_json(text_of):
    done = text_of(status(9)).judge_as_usual("--json")
    assert [json.loads(row) for row in done.output.splitlines()] == [
        {"untested": {"master": 2, "requests": 0, "at_least": 1}}, {"untested": {"exchanges": 0, "at_least": 1}},
        {"verdict": "legal", "entries": 1}]
    assert done.output.startswith('{"untested":{"master":2,"requests":0,"at_least":1}}\n{"untested":{"exchanges":0,"at_least":1}}\n')
    assert done.status == 1


def test_junit(text_of):
    done = text_of(status(9)).judge_as_usual("--junit")
    suite = xml.fromstring(done.output.encode())
    skipped = [(case.get("classname"), case.get("name"), case.find("skipped").get("message"))
               for case in suite.findall("testcase[skipped]")]
    assert skipped == [("text", "tested", "untested: exchanges 0, at least 1"),
                       ("master 2", "tested", "untested: requests 0, at least 1")]
    assert (suite.get("failures"), suite.get("skipped"), done.status) == ("0", "2", 1)
