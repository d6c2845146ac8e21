"""The scenarios of examples/suite: the master of examples/suite-master.py passes each, and each wrong master fails one.

The wrong masters are those of suite_masters.py. A case has all reasons for which its master has to fail its scenario, as patterns
of whole rows.
"""
import re
import sys
from pathlib import Path

import pytest

from support.package_runs import TOP, run_python

RIGHT, WRONG = TOP / "examples/suite-master.py", Path(__file__).with_name("suite_masters.py")
SCENARIOS = sorted(path.stem for path in (TOP / "examples/suite").glob("*.py"))
# Seconds that a right master may take for a scenario, also on a busy machine.
ENOUGH = 200
# Seconds for a master that never does what must be seen, which takes them all. If it fails otherwise, the machine may have been
# too busy for what comes before, and it gets more.
FEW, MORE = 12, 90
# Scenarios and masters that take some seconds.
SLOW = {"another-master", "configuration-refused", "late-reply", "parameters-refused", "reply-lost", "slave-lost-and-back",
        "slave-lost-for-300-ms", "spoilt-reply", "wrong-ident-at-first", "BelievesAnyIdent", "IgnoresCfgFault",
        "IgnoresPrmFault", "Stays", "TakesAnyReply", "TakesWhatIsHeld"}


def broken(slave, rule):
    """The reason if a rule of the judge was broken."""
    return rf"place \d+ slave {slave} {rule}(?: \(\d+ times\))?: .+"


def unseen(what):
    """The reason if something was not seen."""
    return rf"not seen in \d+ s: {what}"


def not_again(fault):
    """The reason if a request was not sent again after its reply was lost or spoilt."""
    return rf"the request to slave 5 at place \d+ was not sent again with the same FCB after its reply was {fault}"


def no_exchanges(slave, state, holder, outputs):
    """The reason if data are no longer exchanged with a slave, and how it is then."""
    return unseen(rf"\d+ exchanges with slave {slave}; it is in {state}, held by {holder}, with outputs {outputs}")


NO_OUTPUTS = unseen("slave 5 in data exchange with master 1, with outputs aa55; it is in DataExch, held by master 1, "
                    "with outputs 0000")
# Masters that do all that must be seen and break rules, or end.
QUICK = {
    "NoFirstDiagnosis": ("bring-up", [broken(5, "prm-before-diag")]),
    "NoSecondDiagnosis": ("bring-up", [broken(5, "exchange-without-diag")]),
    "ShortTsdr": ("bring-up", [broken(5, "min-tsdr")]),
    "Ends": ("bring-up", [r"the master ended with status 1 \(out of cycles\), before this was seen: 10 exchanges with slave 5"]),
    "Noise": ("bring-up", [r"octets that are no telegram: dropped 1 octet: NoStart \(00\)"]),
    "Stays": ("bring-up", ["the master did not end within 5 s after SIGTERM"]),
    "TakesBusyForDone": ("busy-slave", [broken(5, "cfg-before-prm")]),
    "TakesWhatIsHeld": ("another-master", [broken(5, "prm-of-other")]),
    "BelievesAnyIdent": ("wrong-ident-at-first", [broken(5, "exchange-before-ready")]),
    "IgnoresPrmFault": ("parameters-refused", [broken(5, "exchange-before-ready")]),
    "IgnoresCfgFault": ("configuration-refused", [broken(5, "exchange-before-ready")]),
    "OtherGroup": ("sync-and-freeze", [r"place \d+ all slaves group-not-set \(\d+ times\): .+"]),
    "BothBits": ("sync-and-freeze", [r"place \d+ all slaves control-both \(\d+ times\): .+"]),
    "OutputsInClear": ("fail-safe", [r"outputs 1234 to slave 5 in Clear, at place \d+",
                                     r"place \d+ slave 5 outputs-in-clear \(\d+ times\): .+"]),
    "NoClear": ("fail-safe", ["no Clear_Data to slave 5"]),
    "FirstConfiguration": ("several-configurations", ["slave 5 is configured as 2111, not as 2010"]),
    "ChangesFcbOfARetry": ("reply-lost", [not_again("lost")]),
    "RepeatsTheFcbOfARetry": ("reply-lost", [not_again("lost")]),
    "AcceptsAnyCheckSequence": ("spoilt-reply", [not_again("spoilt")]),
    "HasOneAddress": ("two-masters", [r"the master ended with status 1 \(rackd.faults.NotAccepted: .+\), before this was seen: "
                                      "slave 7 in data exchange with master 2, with outputs 5678"]),
    "TakesAnyReply": ("late-reply", [r"outputs (?:aa55 at place \d+, slave 6 has 0000 or 1234|"
                                     r"1234 at place \d+, slave 5 has 0000 or aa55)"]),
}
# Masters that fail no other scenario. One that changes the FCB of a retry also fails where a slave is off the bus at first: its
# retry of a request with FCV 0 is answered, and the next one has FCV 0 again.
ONLY_ONE = ["TakesBusyForDone", "TakesWhatIsHeld", "IgnoresPrmFault", "IgnoresCfgFault", "BothBits", "NoClear",
            "AcceptsAnyCheckSequence", "HasOneAddress", "TakesAnyReply"]
# Masters that never do what must be seen.
LONG = {
    "FcbStands": ("bring-up", [no_exchanges(5, "DataExch", "master 1", "0000"), broken(5, "fcb-repeated")]),
    "Deaf": ("bring-up", [NO_OUTPUTS]),
    "ExchangesForEver": ("watchdog-expiry", [no_exchanges(5, "WaitPrm", "nobody", "0000"), broken(5, "exchange-after-rs")]),
    "NeverReadsDiagnosis": ("diagnosis-during-exchange", [unseen("1 Slave_Diag to slave 5 with rule Done; .+"),
                                                          broken(5, "diag-not-read")]),
    "GivesUpBusy": ("busy-slave", [unseen("3 Data_Exchange to slave 5 with rule Busy; .+")]),
    "GivesUp": ("slave-lost-and-back", [unseen("a request to slave 5 with FCV 0 while it is off")]),
    "StopsForOne": ("slave-lost-and-back", [no_exchanges(6, "DataExch", "master 1", "5678")]),
    "GivesUpWrongIdent": ("wrong-ident-at-first", [unseen("5 Slave_Diag to slave 5 with rule Done; .+")]),
    "NoSync": ("sync-and-freeze", [unseen("slave 5 in sync mode")]),
    "SyncOnce": ("sync-and-freeze", [NO_OUTPUTS]),
    "LongOutputs": ("several-configurations", [no_exchanges(5, "DataExch", "master 1", "00"), broken(5, "length-repeated")]),
    "KeepsFcb": ("slave-lost-for-300-ms", [unseen(r"10 exchanges with slave \d; .+"), broken(5, "fcb-repeated")]),
}


def suite(folder, scenario, seconds, *master):
    """Runs one scenario of examples/suite with a master."""
    words = ["--only", scenario, "--timeout", seconds, "--connect", ENOUGH, sys.executable, *master]
    return run_python(folder, "-m", "rackd", "suite", *words, within=600)


def reasons_of(done, scenario):
    """Returns the reasons for which a master has failed a scenario."""
    *rows, last = done.output.splitlines()
    begin = f"failed  {scenario}  "
    assert (done.status, done.errors, last) == (1, "", "0 passed, 1 failed"), done
    assert rows[0].startswith(begin), rows
    return [row[len(begin):] for row in rows]


def is_as_expected(found, patterns):
    return len(found) == len(patterns) and all(map(re.fullmatch, patterns, found))


def cases(names):
    """Returns the cases of a table, of which those of SLOW are slow."""
    return [pytest.param(name, marks=pytest.mark.slow if name in SLOW else ()) for name in names]


@pytest.mark.parametrize("scenario", cases(SCENARIOS))
def test_right_master(tmp_path, scenario):
    assert suite(tmp_path, scenario, ENOUGH, RIGHT) == (0, f"passed  {scenario}\n1 passed, 0 failed\n", "")


@pytest.mark.parametrize("name", cases(QUICK))
def test_wrong_master(tmp_path, name):
    scenario, patterns = QUICK[name]
    found = reasons_of(suite(tmp_path, scenario, ENOUGH, WRONG, name), scenario)
    assert is_as_expected(found, patterns), found


@pytest.mark.slow
@pytest.mark.parametrize("name", LONG)
def test_master_that_never_does_what_it_must(tmp_path, name):
    scenario, patterns = LONG[name]
    for seconds in FEW, MORE:
        found = reasons_of(suite(tmp_path, scenario, seconds, WRONG, name), scenario)
        if is_as_expected(found, patterns):
            return
    assert is_as_expected(found, patterns), found


@pytest.mark.slow
@pytest.mark.parametrize("name", ONLY_ONE)
def test_wrong_master_that_passes_all_other_scenarios(tmp_path, name):
    scenario, _ = QUICK[name]
    words = ["--timeout", ENOUGH, "--connect", ENOUGH, sys.executable, WRONG, name]
    done = run_python(tmp_path, "-m", "rackd", "suite", *words, within=900)
    verdicts = dict(row.split()[1::-1] for row in done.output.splitlines() if row.startswith(("passed ", "failed ")))
    assert verdicts == {each: "failed" if each == scenario else "passed" for each in SCENARIOS}, done


def test_each_wrong_master_has_a_case(tmp_path):
    assert sorted([*QUICK, *LONG]) == sorted(run_python(tmp_path, WRONG).output.split())


def test_each_scenario_is_failed_by_a_master():
    assert sorted({scenario for scenario, _ in (*QUICK.values(), *LONG.values())}) == SCENARIOS
