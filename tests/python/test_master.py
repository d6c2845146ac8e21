"""The telegrams of the master, at a line of this file that records them and has its replies from the test."""
import socket
import threading
import time

import pytest

from rackd import RR, RS, UE, Master, NoReply, SlaveRefused

from support.clients import wait_for
from support.package_runs import CFG, IDENT
from support.processes import PATIENCE
from support.sleeping import left_at_sender, left_in_pipe

# The first diagnosis of slave 5 for master 1, and inputs aa 55 of slave 5, both of docs/guide/01-first-master.md and docs/guide/03-operator-and-plant.md.
FIRST_DIAGNOSIS = "680b0b688185083e3c020500ff80a1af16"
INPUTS = "68050568010508aa550d16"
# Seconds that a master waits for a reply that does not come.
SILENCE = 0.2


class RecordedLine(threading.Thread):
    """A port that accepts one master, and replies to its telegrams with these octets, one after another."""

    def __init__(self, *replies):
        super().__init__(daemon=True)
        self.replies, self.got, self.connection = [bytes.fromhex(reply) for reply in replies], [], None
        self._listener = socket.create_server(("127.0.0.1", 0))
        self.port = self._listener.getsockname()[1]
        self.start()

    def run(self):
        self.connection, _ = self._listener.accept()
        self._listener.close()
        self.connection.recv(1)
        self.connection.sendall(b"\xe5")
        while octets := self.connection.recv(300):
            # several that were sent one after another may come at once; each of them comes whole
            while octets:
                size = octets[1] + 6 if octets[0] == 0x68 else 6
                self.got.append(octets[:size].hex())
                octets = octets[size:]
                self.connection.sendall(self.replies.pop(0) if self.replies else b"")
        self.connection.close()

    def push(self, octets):
        """Sends octets that answer no telegram, and waits until they have come to the other end."""
        self.connection.sendall(bytes.fromhex(octets))
        wait_for(lambda: left_at_sender(self.connection) == 0)


@pytest.fixture
def connect():
    """A function that returns master 1 at a line with these replies, and the line. The master waits long if there are any."""
    begun = []

    def start(*replies):
        line = RecordedLine(*replies)
        master = Master(line.port, 1)
        master.timeout = PATIENCE if replies else SILENCE
        begun.append((master, line))
        return master, line

    yield start
    for master, line in begun:
        master.close()
        line.join(PATIENCE)


def telegrams(master, line):
    """Ends the session of a master, and returns all telegrams that the line has got of it."""
    master.close()
    line.join(PATIENCE)
    assert not line.is_alive()
    return line.got


def test_bring_up_sends_the_telegrams_of_the_manual(connect):
    # the steps of docs/guide/01-first-master.md, but for the factors of the watchdog, 1 and 10 for 2 and 5
    master, line = connect(FIRST_DIAGNOSIS, "e5", "e5", "680b0b688185083e3c000c000180a1b616", INPUTS)
    master.bring_up(5, IDENT, CFG, watchdog_ms=100, group=1)
    assert master.data_exchange(5, b"\x12\x34").hex() == "aa55"
    assert telegrams(master, line) == [
        "6805056885816d3c3eed16", "680c0c6885815d3d3e88010a0b80a1019e16", "6807076885817d3e3e21113116", "6805056885815d3c3edd16",
        "6805056805017d1234c916"]


@pytest.mark.parametrize("diagnosis", [
    pytest.param(FIRST_DIAGNOSIS, id="not-ready"), pytest.param("680b0b688185083e3c0004000280a1af16", id="another-holder"),
])
def test_bring_up_needs_data_exchange_and_the_holder(connect, diagnosis):
    master, _ = connect(FIRST_DIAGNOSIS, "e5", "e5", diagnosis)
    with pytest.raises(SlaveRefused):
        master.bring_up(5, IDENT, CFG)


# The last Slave_Diag of a bring-up whose Chk_Cfg was refused, and what is said of the Set_Prm.
REFUSED_CHK_CFG = {
    "prm-fault": ("680b0b688185083e3c420500ff80a1ef16",
                  "Slave_Diag shows Prm_Fault, since the slave refused the Set_Prm: it has the ident 80A1, "
                  "and the Set_Prm had 1234"),
    "no-prm-fault": (FIRST_DIAGNOSIS, "Slave_Diag shows no Prm_Fault: Diagnosis("),
}


@pytest.mark.parametrize("diagnosis, said", REFUSED_CHK_CFG.values(), ids=REFUSED_CHK_CFG)
def test_bring_up_whose_chk_cfg_is_refused(connect, diagnosis, said):
    """The exception names the service, and what one more Slave_Diag shows."""
    master, line = connect(FIRST_DIAGNOSIS, "e5", "100105030916", diagnosis)
    with pytest.raises(RS) as raised:
        master.bring_up(5, 0x1234, CFG)
    assert str(raised.value).startswith(f"slave 5 refuses Chk_Cfg of master 1: RS, function code 03; {said}")
    assert len(telegrams(master, line)) == 4


def test_frame_count_bit_is_that_of_a_slave(connect):
    master, line = connect(*["e5"] * 5)
    for slave in (5, 6, 5, 5, 6):
        master.chk_cfg(slave, CFG)
    assert [octets[12:14] for octets in telegrams(master, line)] == ["6d", "6d", "5d", "7d", "5d"]


def test_read_services(connect):
    # data of one octet, from points 59, 56 and 57; the sums are worked out by hand
    master, line = connect("680606688185083e3b21a816", "680606688185083e38018516", "680606688185083e39028716")
    assert (master.get_cfg(5), master.rd_inp(5), master.rd_outp(5)) == (b"\x21", b"\x01", b"\x02")
    assert [octets[14:16] for octets in telegrams(master, line)] == ["3b", "38", "39"]


def test_retry_has_the_same_octets(connect, wait_in_turn):
    master, line = connect("", INPUTS)
    wait_in_turn(SILENCE, PATIENCE)
    assert master.data_exchange(5, b"\x12\x34").hex() == "aa55"
    assert telegrams(master, line) == ["6805056805016d1234b916"] * 2


def test_no_reply_after_the_retries(connect, wait_in_turn):
    master, line = connect()
    master.retries = 2
    wait_in_turn(SILENCE, SILENCE, SILENCE)
    begun = time.monotonic()
    with pytest.raises(NoReply):
        master.data_exchange(5, b"\x12\x34")
    assert time.monotonic() - begun >= 3 * SILENCE
    assert telegrams(master, line) == ["6805056805016d1234b916"] * 3


def test_after_silence_the_next_request_is_a_first_one(connect, wait_in_turn):
    master, line = connect(INPUTS, "", INPUTS)
    master.retries = 0
    wait_in_turn(PATIENCE, SILENCE, PATIENCE)
    master.data_exchange(5, b"\x12\x34")
    with pytest.raises(NoReply):
        master.data_exchange(5, b"\x12\x34")
    master.data_exchange(5, b"\x12\x34")
    assert [octets[12:14] for octets in telegrams(master, line)] == ["6d", "5d", "6d"]


def test_late_replies_are_dropped_before_a_request(connect):
    other = "6805056801050812345416"
    master, line = connect(INPUTS + INPUTS, other, other)
    assert master.data_exchange(5, b"\0\0").hex() == "aa55"
    # one came together with the reply before, another one later
    assert master.data_exchange(5, b"\0\0").hex() == "1234"
    line.push(INPUTS)
    assert master.data_exchange(5, b"\0\0").hex() == "1234"


def test_reply_of_another_slave_or_point_is_no_reply(connect):
    of_slave_6 = "6805056801060812345516"
    master, _ = connect(of_slave_6 + FIRST_DIAGNOSIS + INPUTS)
    assert master.data_exchange(5, b"\0\0").hex() == "aa55"


def test_reply_in_pieces(connect):
    """Each piece is sent once the master has read the one before."""
    master, line = connect(INPUTS[:4])

    def send_the_rest():
        wait_for(lambda: line.got)
        for piece in INPUTS[4:10], INPUTS[10:]:
            wait_for(lambda: left_at_sender(line.connection) == 0 and left_in_pipe(master._connection) == 0)
            line.push(piece)

    later = threading.Thread(target=send_the_rest)
    later.start()
    assert master.data_exchange(5, b"\0\0").hex() == "aa55"
    later.join()


@pytest.mark.parametrize("reply, kind", [("100105010716", UE), ("100105020816", RR), ("100105030916", RS)])
def test_refusals_have_their_names(connect, reply, kind):
    master, _ = connect(reply)
    with pytest.raises(kind) as raised:
        master.data_exchange(5, b"\0")
    assert raised.type is kind
    assert str(raised.value) == f"slave 5 refuses Data_Exchange of master 1: {kind.__name__}, function code {reply[6:8]}"


def test_high_priority_means_a_diagnosis_is_due(connect):
    high, without_inputs = "6805056801050aaa550f16", "1001050a1016"
    master, _ = connect(high, INPUTS, without_inputs, FIRST_DIAGNOSIS, "e5")
    seen = []
    for _ in range(3):
        master.data_exchange(5, b"\0\0")
        seen.append(set(master.diagnosis_due))
    master.slave_diag(5)
    seen.append(set(master.diagnosis_due))
    master.data_exchange(5, b"\0\0")
    assert seen + [master.diagnosis_due] == [{5}, set(), {5}, {5}, set()]


def test_global_control(connect):
    master, line = connect()
    master.global_control(clear=True, group=3)
    master.global_control(unfreeze=True)
    master.global_control(freeze=True)
    master.global_control(unsync=True)
    master.global_control(sync=True, slave=5)
    assert not master.fdl_status(9)
    # bits 1 to 5 of the command, one after another; the sums are worked out by hand
    assert telegrams(master, line) == [
        "68070768ff81463a3e02034316", "68070768ff81463a3e04004216", "68070768ff81463a3e08004616", "68070768ff81463a3e10004e16",
        "680707688581463a3e2000e416", "100901495316"]


@pytest.mark.parametrize("replies, is_there", [(["100105000616"], True), ([], False)], ids=["reply", "silence"])
def test_fdl_status(connect, replies, is_there):
    master, line = connect(*replies)
    assert master.fdl_status(5) == is_there
    assert telegrams(master, line) == ["100501494f16"]


def test_raw_sends_as_it_is(connect):
    master, line = connect("100105000616")
    assert master.raw(b"\x10\x05\x01").hex() == "100105000616"
    master.timeout = SILENCE
    assert master.raw(b"\xff\xff") == b""
    assert telegrams(master, line) == ["100501", "ffff"]
