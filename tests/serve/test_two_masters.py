"""Two masters and an operator at one slave: what each is answered, what the journal has, and what another line has of it.

The octets are those of the examples in docs/guide and of the standard, written here and not coded by the package.
"""
import pytest

from support.clients import answer_to, exchange, open_master, receive
from support.printed_audits import printed_audits
from support.racks import line, rack

# Slave_Diag of masters 1 and 2 to slave 5, and the reply of a slave that nobody holds.
DIAG_1, FRESH_1 = "6805056885816d3c3eed16", "680b0b688185083e3c020500ff80a1af16"
DIAG_2, FRESH_2 = "6805056885826d3c3eee16", "680b0b688285083e3c020500ff80a1b016"
# Set_Prm with a watchdog of 10 units. The one of master 2 is sent with either FCB.
LOCK_1, LOCK_1_FIRST = "680c0c6885815d3d3e8802050b80a1019a16", "680c0c6885816d3d3e8802050b80a101aa16"
LOCK_2, LOCK_2_AGAIN = "680c0c6885826d3d3e8802050b80a101ab16", "680c0c6885825d3d3e8802050b80a1019b16"
NOT_HOLDER = "100205030a16"
# Chk_Cfg; Data_Exchange with either FCB, and its reply with inputs AA55.
CHECK = "6807076885817d3e3e21113116"
EXCHANGE, EXCHANGE_AGAIN, INPUTS = "6805056805015d1234a916", "6805056805017d1234c916", "68050568010508aa550d16"
NOT_ACTIVE = "100105030916"
# A token, and Slave_Diag with the other FCB; the reply of a slave that master 2 holds and has not configured.
TOKEN, DIAG_1_AGAIN, HELD_BY_2 = "dc0501", "6805056885815d3c3edd16", "680b0b688185083e3c020c000280a1b916"
ACCEPTED = "e5"

# What is sent, by whom, and what is answered.
STEPS = [
    ("master 1", DIAG_1, FRESH_1),
    ("operator", "in 5 aa55", "done"),
    ("master 1", LOCK_1, ACCEPTED),
    ("master 2", LOCK_2, NOT_HOLDER),
    ("master 1", CHECK, ACCEPTED),
    ("master 1", EXCHANGE, INPUTS),
    ("operator", "owned 1", "owned 5"),
    ("operator", "tick 9", "released"),
    ("operator", "show 5", "show 5 DataExch 1 in aa55 out 1234 wd 1"),
    ("operator", "tick 1", "released 5"),
    ("master 2", LOCK_2_AGAIN, ACCEPTED),
    ("operator", "owned 2", "owned 5"),
    ("operator", "show 5", "show 5 WaitCfg 2 in aa55 out 0000 wd 10"),
    ("master 1", EXCHANGE_AGAIN, NOT_ACTIVE),
    # A token and an octet of noise get no answer, and the noise makes no entry.
    ("master 1", f"{TOKEN} ff {DIAG_1_AGAIN}", HELD_BY_2),
]

JOURNAL = f"""\
1 req 1 {DIAG_1} | WaitPrm none | reply {FRESH_1} Done
2 in 5 aa55 | WaitPrm none | done
3 req 1 {LOCK_1} | WaitPrm none | reply e5 Done
4 req 2 {LOCK_2} | WaitCfg 1 | reply {NOT_HOLDER} NotHolder
5 req 1 {CHECK} | WaitCfg 1 | reply e5 Done
6 req 1 {EXCHANGE} | DataExch 1 | reply {INPUTS} Done
7 tick 9 | none | released
8 tick 1 | none | released 5
9 req 2 {LOCK_2_AGAIN} | WaitPrm none | reply e5 Done
10 req 1 {EXCHANGE_AGAIN} | WaitCfg 2 | reply {NOT_ACTIVE} NotActive
11 req 1 {TOKEN} | none | silence Token
12 req 1 {DIAG_1_AGAIN} | WaitCfg 2 | reply {HELD_BY_2} Done
""".splitlines()


class Clients:
    """Masters 1 and 2 and an operator of line 1, and master 1 of line 2."""

    def __init__(self, server):
        self.masters = {f"master {address}": open_master(server.ports[1].listen, address) for address in (1, 2)}
        self.far = open_master(server.ports[2].listen, 1)
        self.operator = server.operator()

    def ask(self, who, what):
        """Sends what a client sends, as hex or as a row, and returns the answer in the same form."""
        if who == "operator":
            return answer_to(self.operator, what)
        return exchange(self.masters[who], bytes.fromhex(what)).hex()

    def close(self):
        for client in [*self.masters.values(), self.far, self.operator]:
            client.close()


@pytest.fixture
def server(serve):
    return serve(rack(line(2, 5), line(1, 5)), "--until-input-ends", piped=True)


@pytest.fixture
def clients(server):
    clients = Clients(server)
    yield clients
    clients.close()


def journals(run, tmp_path, server, clients):
    """Ends the server after its clients, and returns its journals."""
    clients.close()
    server.end_input()
    done = server.wait()
    assert done.status == 0
    return printed_audits(run, server.rack, done.output, tmp_path)


def test_answers_and_journal(run, tmp_path, server, clients):
    for who, what, answer in STEPS:
        assert clients.ask(who, what) == answer, (who, what)
    found = journals(run, tmp_path, server, clients)
    assert list(found) == [1, 2]
    assert found[1] == JOURNAL
    assert found[2] == []


# The same of a dialogue in which the operator looks at the line, and names a station that the line lacks.
LOOKS = [
    ("operator", "tick 1", "released"),
    ("operator", "in 5 aa55", "done"),
    ("master 1", LOCK_1_FIRST, ACCEPTED),
    ("operator", "show 5", "show 5 WaitCfg 1 in aa55 out 0000 wd 10"),
    ("operator", "owned 1", "owned 5"),
    ("operator", "show 9", "refused NoStation"),
    ("operator", "owned 9", "owned"),
    ("operator", "in 9 -", "refused NoStation"),
    ("operator", "busy 9 default on", "refused NoStation"),
]


def test_looks_and_refusals_make_no_entry(run, tmp_path, server, clients):
    for who, what, answer in LOOKS:
        assert clients.ask(who, what) == answer, (who, what)
    assert journals(run, tmp_path, server, clients)[1] == [
        "1 tick 1 | none | released",
        "2 in 5 aa55 | WaitPrm none | done",
        f"3 req 1 {LOCK_1_FIRST} | WaitPrm none | reply e5 Done",
    ]


def test_another_line_has_nothing_of_it(run, tmp_path, server, clients):
    for who, what, _ in STEPS:
        clients.ask(who, what)
    assert exchange(clients.far, bytes.fromhex(DIAG_1)).hex() == FRESH_1
    assert answer_to(server.operator(2), "show 5") == "show 5 WaitPrm none in 0000 out 0000 wd off"
    assert journals(run, tmp_path, server, clients)[2] == [f"1 req 1 {DIAG_1} | WaitPrm none | reply {FRESH_1} Done"]


def test_master_2_while_master_1_is_within_a_frame(run, tmp_path, server, clients):
    one = clients.masters["master 1"]
    one.send(bytes.fromhex(DIAG_1)[:6])
    assert clients.ask("master 2", DIAG_2) == FRESH_2
    assert one.receive_or_end(0) == b""
    assert exchange(one, bytes.fromhex(DIAG_1)[6:]).hex() == FRESH_1
    assert journals(run, tmp_path, server, clients)[1] == [
        f"1 req 2 {DIAG_2} | WaitPrm none | reply {FRESH_2} Done",
        f"2 req 1 {DIAG_1} | WaitPrm none | reply {FRESH_1} Done",
    ]


def test_octet_by_octet(run, tmp_path, server, clients):
    """A frame whose octets come one at a time is answered once, after its last octet."""
    one = clients.masters["master 1"]
    for octet in bytes.fromhex(DIAG_1)[:-1]:
        one.send(bytes([octet]))
        # An answer to master 2 shows that the octet has had time to arrive.
        assert clients.ask("master 2", DIAG_2) == FRESH_2
    assert one.receive_or_end(0) == b""
    one.send(b"\x16")
    assert receive(one, 17).hex() == FRESH_1
    journal = journals(run, tmp_path, server, clients)[1]
    assert journal[-1] == f"11 req 1 {DIAG_1} | WaitPrm none | reply {FRESH_1} Done"


def test_halt(run, tmp_path, server, clients):
    for who, what, _ in STEPS:
        clients.ask(who, what)
    assert answer_to(clients.operator, "halt") == "released 5"
    assert answer_to(clients.operator, "tick 1") == "refused Halted"
    assert answer_to(clients.operator, "owned 2") == "owned"
    assert exchange(clients.far, bytes.fromhex(DIAG_1)).hex() == FRESH_1
    assert journals(run, tmp_path, server, clients)[1] == [*JOURNAL, "13 halt | none | released 5"]
