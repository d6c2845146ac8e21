"""Masters that break a rule: those of tests/oracle/masters with one change. `rackd judge` finds this rule, and no other."""
import pytest

from support.independent_masters import RunningMaster, WatchedRack, command_of, slave_words

SLAVES = slave_words()
# In each language the text that is changed, and what replaces it. After 20 exchanges FCB doesn't alternate once.
REPEATED_FCB = {
    "python": ("self.count_bit = not self.count_bit if self.count_bit is not None else False",
               "self.count_bit = self.count_bit if (self.address, self.exchanges) == (5, 20)"
               " else not self.count_bit if self.count_bit is not None else False"),
    "perl": ("$slave->{fcb} = defined $slave->{fcb} ? 1 - $slave->{fcb} : 0;",
             "$slave->{fcb} = defined $slave->{fcb} ? 1 - $slave->{fcb} : 0"
             " unless $slave->{address} == 5 && $slave->{exchanges} == 20;"),
    "c": ("s->count_bit = s->known ? !s->count_bit : false;",
          "if (s->address != 5 || s->exchanges != 20) s->count_bit = s->known ? !s->count_bit : false;"),
}
# A reply of high priority leads to no Slave_Diag.
NO_DIAGNOSIS = {
    "python": ("if reply.code != DH:", "if reply.code != -1:"),
    "perl": ("return $code == $DH ? 'report' : 'exchange';", "return 'exchange';"),
    "c": ("if (result == REPLY_DH) {", "if (result == REPLY_DH && s->exchanges == 0) {"),
}

pytestmark = pytest.mark.parametrize("language", ["python", "perl", "c"])


@pytest.fixture
def rack(serve, run, tmp_path):
    return WatchedRack(serve, run, tmp_path / "audit")


@pytest.fixture
def start(rack, tmp_path):
    """A function that starts a master with a change at the rack. It is killed after the test."""
    masters = []

    def call(language, change, *options):
        masters.append(RunningMaster(command_of(language, tmp_path, change), rack.port, SLAVES.values(), *options))
        return masters[-1]

    yield call
    for master in masters:
        master.kill()


def test_min_tsdr(rack, start, language):
    """Parameters with min TSDR 10."""
    start(language, None, "--exchanges", "10", "--min-tsdr", "10").end(stop=False)
    rack.end_with("min-tsdr")


def test_fcb(rack, start, language):
    """An FCB that does not alternate once, with other outputs."""
    start(language, REPEATED_FCB[language], "--exchanges", "30").end(stop=False)
    assert len(rack.requests(station=5, rule="Repeat")) == 1
    rack.end_with("fcb-repeated")


def test_diagnosis(rack, start, language):
    """No Slave_Diag after a reply of high priority."""
    master = start(language, NO_DIAGNOSIS[language])
    rack.wait_until_started(dict.fromkeys(SLAVES, 1))
    rack.wait_for_requests(12, "diag 5 e 0401", station=5, point=None, rule="Done")
    master.end()
    rack.end_with("diag-not-read")
