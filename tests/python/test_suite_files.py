"""The files of scenarios: what they have to have, and which rules of the judge count."""
import pytest

from support.racks import line as line_text
from support.racks import rack as rack_text
from support.suite_runs import EXCHANGES, GOES_ON, HEAD, MASTER, PASSED, assert_cannot_run, assert_failed

# Sends min TSDR 5 and 6, which is an error of the judge; a request to point 3, which is a warning; and its last Slave_Diag
# twice with the same FCB.
BREAKS_RULES = """
master.slave_diag(5)
for min_tsdr in (5, 6):
    master.set_prm(5, slave['ident'], min_tsdr=min_tsdr)
try:
    master.srd(5, b'', 3)
except rackd.RS:
    pass
master.chk_cfg(5, cfg)
master.slave_diag(5)
master._fcb[5] = not master._fcb[5]
master.slave_diag(5)
while True:
    master.data_exchange(5, bytes(2))
    time.sleep(0.005)
"""
TSDR = r"place 3 slave 5 min-tsdr \(2 times\): .+"
POINT = r"place 5 slave 5 unknown-point: .+"
RETRY = r"place 8 slave 5 fcb-not-alternated: .+"


@pytest.mark.parametrize("text, cause", [
    pytest.param("SLAVES = [", "one.py is no scenario: .*never closed|one.py is no scenario", id="no-python"),
    pytest.param("def run(bus):\n    pass\n", "one.py is no scenario: .*SLAVES", id="no-slaves"),
    pytest.param("SLAVES = []\n", "one.py is no scenario: .*run", id="no-run"),
    pytest.param("\nSLAVES = other\ndef run(bus):\n    pass\n",
                 "one.py is no scenario: line 2: NameError: name 'other' is not defined", id="exception"),
    pytest.param(HEAD + "def run(bus):\n    bus.strat()\n", "one.py line 4: AttributeError: .*strat", id="no-such-step"),
    pytest.param(HEAD + "ALLOWED = ['no-rule']\ndef run(bus):\n    pass\n", "(?s)status 2.*no-rule", id="no-such-rule"),
    pytest.param(HEAD + "RACK = 'nothing = 1\\n'\ndef run(bus):\n    pass\n", "(?s)status 2.*nothing", id="no-rack"),
])
def test_no_scenarios(suite, text, cause):
    suite.scenario("one", text)
    assert_cannot_run(suite.own("true"), cause)


def test_names_of_a_scenario(suite):
    """The title, RACK and CLEAR."""
    rack = rack_text(line_text(1, 5, capacity=20000, masters=[1, 2]))
    suite.scenario("one", f'"""Title.\n\nMore."""\n{HEAD}CLEAR = 7\nRACK = """{rack}"""\nimport pathlib\n'
                   "def run(bus):\n    bus.start()\n    bus.exchanges(5)\n    assert b'capacity = 20000' in bus._rack.text\n"
                   "    pathlib.Path('ran').write_text(str(bus.operator.show(5)))\n")
    assert suite.own("--list").output == "one  Title.\n"
    master = suite.master(MASTER + "assert os.environ['RACKD_CLEAR'] == '7'\n" + GOES_ON)
    assert suite.own(*master) == (0, PASSED, "")
    assert "DATA_EXCH" in (suite.folder / "ran").read_text(encoding="utf-8")


@pytest.mark.parametrize("names, reasons", [
    pytest.param("", [TSDR], id="errors"), pytest.param("ALLOWED = ['min-tsdr']\n", [], id="an-error-is-allowed"),
    pytest.param("COUNTED = ['unknown-point']\n", [TSDR, POINT], id="a-warning-counts"),
    pytest.param("COUNTED = ['fcb-not-alternated']\n", [TSDR, RETRY], id="a-retry-counts"),
    pytest.param("ALLOWED = ['min-tsdr']\nCOUNTED = ['unknown-point']\n", [POINT], id="both"),
])
def test_rules_that_count(suite, names, reasons):
    """What another master does wrong does not count."""
    suite.scenario("one", HEAD + names + "def run(bus):\n    bus.master().timeout = 60\n"
                   "    bus.master().set_prm(5, 1, unlock=True)\n    bus.start()\n    bus.exchanges(5)\n")
    done = suite.own("--timeout", "200", *suite.master(MASTER + BREAKS_RULES))
    if reasons:
        assert_failed(done, *reasons)
    else:
        assert done == (0, PASSED, "")


def test_each_line_is_judged(suite):
    rack = rack_text(*(line_text(number, 5, capacity=16416, masters=[1, 2]) for number in (1, 2)))
    suite.scenario("one", HEAD + f"RACK = {rack!r}\ndef run(bus):\n    bus.start()\n    bus.exchanges(5)\n"
                   "    bus.put(2)\n    bus.request(5, None, 'NotActive', first=1)\n")
    stops_at_rs = ("master.bring_up(5, slave['ident'], cfg)\nwhile True:\n    try:\n        master.data_exchange(5, bytes(2))\n"
                   "    except rackd.RS:\n        time.sleep(600)\n")
    assert_failed(suite.own("--timeout", "200", *suite.master(MASTER + stops_at_rs)),
                  "place 1 slave 5 fcb-first: .+", "place 1 slave 5 exchange-before-ready: .+")


def test_octets_that_are_no_telegram(suite):
    suite.scenario("one", EXCHANGES)
    done = suite.own("--timeout", "200", *suite.master(MASTER + "master._send(bytes(1))\n" + GOES_ON))
    assert_failed(done, r"octets that are no telegram: dropped 1 octet: NoStart \(00\)")
