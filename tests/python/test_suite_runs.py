"""Runs of `python -m rackd suite` with small scenarios: the master's environment, what scenarios see, and why they fail."""
import json
import time

import pytest

from support.package_runs import kill_all, names_in, wait_until_ended
from support.premises import measured, suppose, tried_again
from support.racks import line as line_text
from support.racks import rack as rack_text
from support.suite_runs import EXCHANGES, GOES_ON, HEAD, MASTER, PASSED, assert_cannot_run, assert_failed

# A master that writes its environment and its processes to a file once it has connected, and another file at SIGTERM.
WRITES_ITS_ENVIRONMENT = """
import json, os, signal, socket, subprocess, sys, time
keys = {name: value for name, value in os.environ.items() if name.startswith("RACKD_")}
with socket.create_connection(("127.0.0.1", int(keys["RACKD_PORT"]))) as one:
    one.sendall(bytes([int(keys["RACKD_ADDRESS"])]))
    keys["answer"] = one.recv(9).hex()
name = "FOLDER/" + {"10": "one", "20": "two"}[json.loads(keys["RACKD_SLAVES"])[1]["cfg"]]
child = subprocess.Popen(["sleep", "600"])
keys.update(pids=[os.getpid(), child.pid], words=sys.argv[1:])
def end(*_):
    open(name + ".end", "w").close()
    sys.exit(5)
signal.signal(signal.SIGTERM, end)
with open(name + ".new", "w") as file:
    json.dump(keys, file)
os.rename(name + ".new", name)
while True:
    time.sleep(1)
"""
TWO_SLAVES = """
import os
from rackd.suite import Slave
SLAVES = [Slave(5, watchdog_ms=0, outputs='12'), Slave(6, ident=7, cfg='{cfg}', group=3, sync=True)]
def run(bus):
    bus.start()
    bus.wait('its file', lambda: os.path.exists('{path}'))
"""
# How slave 5 is, at the end of a reason.
NOW = r"; it is in \w+, held by (?:nobody|master 1), with outputs 0000"


def test_environment_and_end(suite):
    """Each scenario has a process of its own with its environment, which SIGTERM ends with its children."""
    for name, cfg in (("one", "10"), ("two", "20")):
        suite.scenario(name, TWO_SLAVES.format(cfg=cfg, path=suite.folder / name))
    master = suite.master(WRITES_ITS_ENVIRONMENT.replace("FOLDER", str(suite.folder)))
    done = suite.own(*master, "--only", "a word", RACKD_OTHER="7", RACKD_SLAVE_9_CFG="11")
    assert done == (0, "passed  one\npassed  two\n2 passed, 0 failed\n", "")
    first, second = (json.loads((suite.folder / name).read_text(encoding="utf-8")) for name in ("one", "two"))
    assert [first[name] for name in ("RACKD_ADDRESS", "RACKD_CLEAR", "RACKD_OTHER", "answer", "words")] == [
        "1", "0", "7", "e5", ["--only", "a word"]]
    assert json.loads(first["RACKD_SLAVES"]) == [
        {"address": 5, "ident": 0x80A1, "cfg": "2111", "user": "", "watchdog_ms": 0, "group": 0, "sync": False, "freeze": False,
         "failsafe": False, "outputs": "12", "mirror": False},
        {"address": 6, "ident": 7, "cfg": "10", "user": "", "watchdog_ms": 1000, "group": 3, "sync": True, "freeze": False,
         "failsafe": False, "outputs": "0000", "mirror": False}]
    assert {name: value for name, value in first.items() if name.startswith("RACKD_SLAVE_")} == {
        "RACKD_SLAVE_ADDRESSES": "5 6",
        "RACKD_SLAVE_5_IDENT": "32929", "RACKD_SLAVE_5_CFG": "2111", "RACKD_SLAVE_5_USER": "",
        "RACKD_SLAVE_5_WATCHDOG_MS": "0", "RACKD_SLAVE_5_GROUP": "0", "RACKD_SLAVE_5_SYNC": "0", "RACKD_SLAVE_5_FREEZE": "0",
        "RACKD_SLAVE_5_FAILSAFE": "0", "RACKD_SLAVE_5_OUTPUTS": "12", "RACKD_SLAVE_5_MIRROR": "0",
        "RACKD_SLAVE_6_IDENT": "7", "RACKD_SLAVE_6_CFG": "10", "RACKD_SLAVE_6_USER": "",
        "RACKD_SLAVE_6_WATCHDOG_MS": "1000", "RACKD_SLAVE_6_GROUP": "3", "RACKD_SLAVE_6_SYNC": "1",
        "RACKD_SLAVE_6_FREEZE": "0", "RACKD_SLAVE_6_FAILSAFE": "0", "RACKD_SLAVE_6_OUTPUTS": "0000",
        "RACKD_SLAVE_6_MIRROR": "0"}
    assert json.loads(second["RACKD_SLAVES"])[1]["cfg"] == "20"
    assert first["pids"] != second["pids"]
    try:
        wait_until_ended(*first["pids"], *second["pids"])
    finally:
        kill_all([*first["pids"], *second["pids"]])
    assert names_in(suite.folder, "*.end") == ["one.end", "two.end"]
    assert names_in(suite.folder) == []


def test_own_tokens_do_not_come_to_the_line(suite):
    suite.scenario("one", EXCHANGES + "    assert [one.place for one in bus.requests()] == list(range(1, bus.place()))\n"
                   "    assert {one.frame.start for one in bus.requests()} == {0x68}\n")
    assert suite.own(*suite.master(MASTER + "master._send(bytes([0xDC, 1, 1]) * 5)\n" + GOES_ON)) == (0, PASSED, "")


def test_requests_are_those_of_the_master(suite):
    suite.scenario("one", EXCHANGES + "    bus.master().timeout = 60\n    bus.master().slave_diag(5)\n    first = bus.place()\n"
                   "    bus.exchanges(5, 3)\n"
                   "    assert {one.master for one in bus.requests()} == {1}\n"
                   "    every = bus.requests()\n"
                   "    assert bus.requests(5)[:len(every)] == every and not bus.requests(6)\n"
                   "    assert bus.requests()[0].place == 1 and bus.requests(first=first)[0].place == first\n")
    assert suite.own(*suite.master(MASTER + GOES_ON)) == (0, PASSED, "")


@pytest.mark.parametrize("steps, reason", [
    pytest.param("    bus.fail('no reason')\n", "no reason", id="fail"),
    pytest.param("    assert 1 == 2, 'one is two'\n", "line 5: AssertionError: one is two", id="assertion-with-words"),
    pytest.param("    assert 1 == 2\n", "line 5: AssertionError: assert 1 == 2", id="assertion"),
    pytest.param("    bus.exchanges(5)\n    bus.master().set_prm(5, 1)\n", "line 6: RS: slave 5 refuses Set_Prm of master 2: .+",
                 id="refusal"),
])
def test_reasons_of_scenarios(suite, steps, reason):
    suite.scenario("one", HEAD + "def run(bus):\n    bus.master().timeout = 60; bus.start()\n" + steps)
    assert_failed(suite.own(*suite.master(MASTER + GOES_ON)), reason)


@pytest.mark.parametrize("step, what", [
    pytest.param("bus.outputs(5, '0102')", "slave 5 in data exchange with master 1, with outputs 0102" + NOW, id="outputs"),
    pytest.param("bus.request(5, None, 'Busy')", "1 Data_Exchange to slave 5 with rule Busy" + NOW, id="request"),
    pytest.param("bus.cable.lose(6)\n    bus.met()", "a reply for each fault of the cable", id="fault-of-the-cable"),
])
def test_what_is_not_seen(suite, step, what):
    suite.scenario("one", HEAD + f"def run(bus):\n    bus.start()\n    {step}\n")
    begun = time.monotonic()
    done = suite.own("--timeout", "3", *suite.master(MASTER + GOES_ON))
    assert_failed(done, "not seen in 3 s: " + what)
    assert time.monotonic() - begun >= 3


@pytest.mark.parametrize("code, end", [
    pytest.param("print('a'); print('b ', end='\\n\\n')",
                 r"the master ended with status 0 \(b\), before this was seen: 10 exchanges with slave 5", id="status"),
    pytest.param("import os; os.kill(os.getpid(), 9)", r"the master was ended by signal 9 \(SIGKILL\), before this was seen: .+",
                 id="signal"),
])
def test_master_that_ends(suite, code, end):
    """The suite does not wait for 999 seconds."""
    suite.scenario("one", EXCHANGES)
    assert_failed(suite.own("--timeout", "999", *suite.master(code)), end)


# Masters that do not connect as their address, and how the reason goes on.
UNCONNECTED = {
    "never": ("import time; print('hello', flush=True); time.sleep(600)", r" \(hello\)"),
    "as-another": ("import socket, time, os\n"
                   "with socket.create_connection(('127.0.0.1', int(os.environ['RACKD_PORT']))) as one:\n"
                   "    one.sendall(bytes([9]))\n    one.recv(1)\n    time.sleep(600)\n",
                   "; the line has: master 9 refused: UnknownMaster"),
}


@pytest.mark.parametrize(("name", "seconds"), [
    ("never", 1), pytest.param("never", 5, marks=pytest.mark.slow), pytest.param("as-another", 20, marks=pytest.mark.slow)])
def test_master_that_does_not_connect(suite, name, seconds):
    """The suite does not wait for 999 seconds. It waits for five if nothing else is said."""
    code, end = UNCONNECTED[name]
    suite.scenario("one", EXCHANGES)
    words = ["--folder", "scenarios", *(["--connect", seconds] if seconds != 5 else []), "--timeout", "999"]
    begun = time.monotonic()
    done = suite.run(*words, *suite.master(code))
    assert_failed(done, f"the master did not connect to RACKD_PORT as master 1 within {seconds} s{end}")
    assert time.monotonic() - begun >= seconds


# Begins and ends by rows of a file. Between them it waits for the begins of three, or leaves some time for others to begin.
TAKES_PART = HEAD + """
import time
def note(row):
    with open("rows", "a") as file:
        print(row, file=file)
def run(bus):
    note("begin " + __name__)
    until = time.monotonic() + LONGEST
    bus.wait("others", lambda: open("rows").read().count("begin") == 3 or time.monotonic() > until)
    note("end " + __name__)
"""


@pytest.mark.parametrize("jobs", [1, 2, 3])
def test_scenarios_side_by_side(suite, jobs):
    """With three jobs each of three scenarios waits for the others. With fewer no more than these run at one time."""
    for name in ("a", "b", "c"):
        suite.scenario(name, TAKES_PART.replace("LONGEST", "600" if jobs == 3 else "2"))
    assert suite.own("--jobs", jobs, "true") == (0, "passed  a\npassed  b\npassed  c\n3 passed, 0 failed\n", "")
    running = most = 0
    for row in (suite.folder / "rows").read_text(encoding="ascii").splitlines():
        running += 1 if row.startswith("begin") else -1
        most = max(most, running)
    assert most <= jobs and (jobs != 3 or most == 3)


def test_table_has_the_order_of_the_names(suite):
    """The first scenario ends last."""
    suite.scenario("a", HEAD + "import os\ndef run(bus):\n    bus.wait('the other', lambda: os.path.exists('b'))\n")
    suite.scenario("b", HEAD + "def run(bus):\n    open('b', 'w').close()\n    bus.fail('why')\n")
    assert suite.own("--jobs", "2", "true") == (1, "passed  a\nfailed  b  why\n1 passed, 1 failed\n", "")


def test_suite_that_cannot_run_ends_all_scenarios(suite):
    """The second scenario cannot run while the others wait for what never comes."""
    for name in ("a", "c"):
        suite.scenario(name, HEAD + "def run(bus):\n    bus.wait('nothing', lambda: False)\n")
    suite.scenario("b", HEAD + "def run(bus):\n    bus.strat()\n")
    assert_cannot_run(suite.own("--jobs", "3", "--timeout", "999", "true"), "b.py line 4: AttributeError: .*strat")
    assert names_in(suite.folder) == []


SECOND = HEAD + "SECOND = [Slave(6, ident=9, outputs='5678')]\ndef run(bus):\n"
# A master of the slave that is named first, with its outputs.
ONE_SLAVE = MASTER + """
master.bring_up(slave["address"], slave["ident"], cfg)
while True:
    master.data_exchange(slave["address"], bytes.fromhex(slave["outputs"]))
    time.sleep(0.005)
"""


def test_second_process(suite):
    suite.scenario("one", SECOND + "    bus.start()\n    bus.second.start()\n    bus.outputs(5, '0000')\n"
                   "    bus.second.outputs(6, '5678')\n    bus.second.exchanges(6)\n    bus.exchanges(5)\n"
                   "    assert bus.operator.owned(1) == [5] and bus.operator.owned(2) == [6]\n"
                   "    assert {one.master for one in bus.second.requests()} == {2}\n")
    assert suite.own(*suite.master(ONE_SLAVE)) == (0, PASSED, "")


def test_second_process_is_judged_too(suite):
    suite.scenario("one", SECOND + "    bus.second.start()\n    bus.second.exchanges(6)\n")
    breaks = ONE_SLAVE.replace("master.bring_up", "master.set_prm(slave['address'], slave['ident'])\nmaster.bring_up")
    assert_failed(suite.own("--timeout", "200", *suite.master(breaks)), "place 1 slave 6 prm-before-diag: .+")


def test_no_second_process(suite):
    suite.scenario("one", HEAD + "def run(bus):\n    bus.second.start()\n")
    assert_cannot_run(suite.own("true"), "one.py line 4: ValueError: the scenario has no SECOND")


def test_second_process_at_several_lines(suite):
    rack = rack_text(*(line_text(number, 5, capacity=16416, masters=[1, 2]) for number in (1, 2)))
    suite.scenario("one", HEAD + f"SECOND = [Slave(6)]\nRACK = {rack!r}\ndef run(bus):\n    pass\n")
    assert_cannot_run(suite.own("true"), "one.py has SECOND, and a rack of several lines")


def test_order_behind_start(suite):
    suite.scenario("one", HEAD + "def run(bus):\n    bus.start()\n    bus.order('lose', 5)\n")
    assert_cannot_run(suite.own(*suite.master(MASTER)), "one.py line 5: ValueError: order comes before start")


@pytest.mark.parametrize(("fault", "word"), [("lose", "lost"), ("spoil", "spoilt"), ("cut", "cut")])
@tried_again
def test_replies_that_meet_a_fault(suite, fault, word):
    """Replies 6 and 12 of slave 5 meet it, and the master has no retry. If it is held up for a second, it takes a reply for lost, and
    its next request is the same as the one before."""
    suite.scenario("one", HEAD + f"def run(bus):\n    bus.order('{fault}', 5, every=6, times=2)\n    bus.start()\n"
                   "    bus.retried(5)\n")
    never = MASTER.replace("master.timeout = 60", "master.timeout, master.retries = 1, 0") + GOES_ON.replace(
        "    master.data_exchange(5, bytes(2))\n", "    try:\n        master.data_exchange(5, bytes(2))\n"
        "    except (rackd.NoReply, rackd.BadFrame):\n        pass\n")
    with measured(has_ending=True) as machine:
        done = suite.own("--timeout", "200", *suite.master(never))
    if "came when others had just been sent again" in done.output:
        suppose(machine.held_up < 1, f"the master may have been held up for {machine.held_up:.1f} s")
    assert_failed(done, f"the request to slave 5 at place 6 was not sent again with the same FCB after its reply was {word}")


@pytest.fixture
def four(suite):
    """Four scenarios, of which the second and the fourth fail."""
    for name, step in (("a", "pass"), ("bbb", "bus.fail('why')"), ("c", "pass"), ("d", "bus.fail('not')")):
        suite.scenario(name, HEAD + f"def run(bus):\n    {step}\n")
    return suite


def test_counts(four):
    assert four.own("true") == (1, "passed  a\nfailed  bbb  why\npassed  c\nfailed  d    not\n2 passed, 2 failed\n", "")


def test_only_some(four):
    assert four.own("--only", "c", "--only", "a", "true") == (0, "passed  a\npassed  c\n2 passed, 0 failed\n", "")


def test_keep(suite):
    suite.scenario("one", EXCHANGES)
    master = suite.master("print('here', flush=True)\n" + MASTER + GOES_ON)
    assert suite.own("--keep", "kept", *master) == (0, PASSED, "")
    found = {path.name: path for path in (suite.folder / "kept" / "one").rglob("*") if path.is_file()}
    assert {"rack.toml", "line-1-1.000001.audit", "master.output"} <= {*found}
    assert found["master.output"].read_text(encoding="utf-8") == "here\n"
    assert "req 1 " in found["line-1-1.000001.audit"].read_text(encoding="ascii")
