"""Clean masters: `rackd judge` finds nothing in what they send."""
import pytest

from support.judging import FIRST, Request, bring_up, by, control, diag, exchange, get_cfg, prm, status

ABSENT = diag(9, fc=FIRST)
WATCHED = bring_up(status=0x88, watchdog=(2, 5))


def two_slaves():
    """Returns a script with all that a master does in a run: exchanges, controls, a diagnosis, watchdogs, a search."""
    # Slave 5 has Sync and Freeze, and its parameters ask for both.
    steps = [step for slave, octet in ((5, 0xB8), (6, 0x88)) for step in bring_up(slave, group=1, status=octet, watchdog=(10, 10))]
    for number in range(20):
        steps += [exchange(bytes([number, 1])), exchange(b"\x07", slave=6)]
        if number % 5 == 0:
            steps += [control(0x20, group=1), control(0x08)]
        if number == 7:
            steps.append("diag 5 e 0407")
        if number == 9:
            steps.append(diag())
        steps += ["tick 3", status(9)]
    return steps


def passes_the_token_on():
    """Returns a script of two masters that retry requests to absent slaves, and pass the token to each other."""
    turn = [exchange(), ABSENT, "m 1 dc 02 01", *by(2, diag(10, fc=FIRST)), "m 2 dc 01 02"]
    return [*bring_up(), *turn * 10]


def waits_for_another_master():
    """Returns a script of a master that reads the diagnosis of a slave until another master has unlocked it."""
    first = [*bring_up(), *[*by(2, diag()), exchange()] * 3, prm(status=0x40)]
    return [*first, *by(2, *bring_up(), exchange())]


CLEAN = {
    "two slaves": two_slaves(),
    "polls an absent slave": [ABSENT, ABSENT, status(10), "tick 1"] * 30,
    "retries within the limit": [ABSENT] * 4,
    "retries with FCV 0 at several times": [*[ABSENT] * 4, "tick 1"] * 3,
    "after a lost slave": [*WATCHED, exchange(), "tick 5", get_cfg(), "tick 5", exchange(), *bring_up(), exchange()],
    "waits for another master": waits_for_another_master(),
    "stray octets now and then": ["m 1 e5", "m 1 e5", *[status(9)] * 120] * 5,
    "passes the token on": passes_the_token_on(),
    # A station that has not answered may be a master that is about to enter the ring.
    "passes the token to stations that have not answered": [*bring_up(), exchange(), status(9), *["m 1 dc 09 01", "m 1 dc 06 01"] * 3],
    "is alone in the ring": ["m 1 dc 01 01"] * 200,
    # A Global_Control restarts the watchdog of the slaves that it selects.
    "keeps the watchdog running by Global_Control": [*WATCHED, exchange(), *["tick 9", control(0)] * 5, exchange()],
    # Slave_Diag is answered RR, as long as its point is marked busy.
    "tries to read the diagnosis": [
        *bring_up(), "diag 5 e 0407", "busy 5 60 on", *[exchange(), diag()] * 6, "busy 5 60 off", diag(), exchange()],
    "uses each point of DP-V0": [
        *bring_up(), Request(5, 56), Request(5, 57), get_cfg(), Request(5, 54, b"\x01"), Request(5, 54, b"\x01", fc=0x44),
        Request(5, 55, b"\x07\x80\xa1\x00")],
    "clears the outputs and operates": [
        *bring_up(group=1), exchange(), control(0x02), exchange(b"\0\0"), control(0), exchange(), control(0x02, group=1),
        exchange()],
    "sends outputs that look like access points": [*bring_up(), exchange(b"\x3d\x3e"), exchange(b"\x3c\x3e")],
    # The reply to the first request is lost on the way: the master sends the same again.
    "sends its first request again": [diag(fc=FIRST), *bring_up(), exchange()],
    "sets min TSDR of a slave that has parameters": [*bring_up(), exchange(), prm(status=0), exchange()],
    "sends a wrong length once": [*bring_up(), exchange(b"\x01"), exchange()] * 2,
    "no entries": [],
}


@pytest.mark.parametrize("script", CLEAN.values(), ids=[name.replace(" ", "-") for name in CLEAN])
def test_clean_master(text_of, script):
    assert text_of(*script).findings() == ([], 0)
