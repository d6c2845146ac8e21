"""What the clock of a rack writes: its ticks and the steps of devices are in the audit texts, also if nobody is connected."""
import re
import resource
import signal
import time

import pytest

from support.clients import connect, wait_for
from support.line_time import UNIT, Poller, new_folder, rack_of, units_before_rows, whole_rows
from support.premises import measured, suppose, tried_again
from support.racks import line, rack, slave

# Seconds for which the rack is stopped, and the octets that a file may have on a full disk: some dozens of rows.
STOPPED, FULL = 0.4, 4000


def check(run, server, folder, text):
    """Fails unless a text is a journal of a line of the rack, with an entry for each of its rows."""
    (folder / "text").write_bytes(text)
    done = run("check", server.rack, folder / "text")
    assert (done.status, done.output, done.errors) == (0, f"legal {text.count(10) - 1}\n", "")


class Counter:
    """A slave that counts the steps of its device, between two moments of the clock."""

    def __init__(self, operator):
        self.before = time.monotonic()
        inputs = operator.show(7).inputs
        self.after = time.monotonic()
        self.steps = int.from_bytes(inputs, "big")


@tried_again
def test_devices_step_by_the_clock(serve, run, tmp_path):
    """Devices step at each multiple of `--step`, not more often, and no time passes by it."""
    step, seconds, audit = 0.020, 1, new_folder(tmp_path)
    slaves = [slave(5, device="still"), slave(6, device="mirror"), slave(7, device="counter")]
    server = serve(rack(line(1, *slaves)), "--step", 20, "--audit", audit)
    operator = server.operator()
    with measured(server.pid) as machine:
        first = Counter(operator)
        time.sleep(seconds)
        last = Counter(operator)
    most = (last.after - first.before) / step + 1
    assert last.steps - first.steps <= most
    suppose(last.steps - first.steps >= most / 2 or machine.held_up < seconds / 2, "the rack had no processor")
    assert last.steps - first.steps >= most / 2
    assert operator.ask("show 5") == "show 5 WaitPrm none in 0000 out 0000 wd off"
    assert operator.ask("step") == "stepped 2"
    text = whole_rows(audit / "line-1-1.audit")
    check(run, server, tmp_path, text)
    assert units_before_rows(text)[1] == 0


def test_late_step_is_made_once(serve):
    """A rack that stood still for twenty steps makes one of them."""
    step = 0.020
    server = serve(rack_of([1], [7], "counter"), "--step", 20)
    operator = server.operator()
    last = Counter(operator)
    server.send_signal(signal.SIGSTOP)
    stopped = time.monotonic()
    time.sleep(STOPPED)
    stopped = time.monotonic() - stopped
    server.send_signal(signal.SIGCONT)
    behind = wait_for(lambda: (counter := Counter(operator)).steps > last.steps and counter)
    # Before the stop and after it a step can be due once more than the time there has whole steps, and one step is late.
    assert behind.steps - last.steps <= (behind.after - last.before - stopped) / step + 3


def test_rows_come_without_a_session(serve, run, tmp_path):
    """Ticks and steps of both lines are in their files though nobody is connected, and not more than the clock has."""
    before = time.monotonic()
    server = serve(rack(*(line(number, slave(7, device="counter")) for number in (1, 2))), "--tick", 20, "--step", 50,
                   "--audit", tmp_path / "audit")
    for number in (1, 2):
        path = tmp_path / "audit" / f"line-{number}-1.audit"

        def enough(path=path):
            text = whole_rows(path)
            has_enough = units_before_rows(text)[1] >= 50 and len(re.findall(rb"(?m)^\d+ in 7 ", text)) >= 10
            return has_enough and text

        text = wait_for(enough)
        passed = time.monotonic() - before
        assert units_before_rows(text)[1] <= passed / UNIT + 1
        assert len(re.findall(rb"(?m)^\d+ in 7 ", text)) <= passed / 0.050 + 1
        check(run, server, tmp_path, text)


@pytest.mark.parametrize("words", [("--tick", 10), ("--step", 2)], ids=["tick", "step"])
def test_full_disk_without_a_session(serve, run, tmp_path, words):
    """If a row of a tick or a step can't be written, the program ends as if that of an answer can't."""
    server = serve(rack_of([1], [7], "counter"), *words, "--audit", tmp_path / "audit",
                   limits=[(resource.RLIMIT_FSIZE, FULL)], ignores=[signal.SIGXFSZ])
    done = server.wait()
    assert done.status == 5
    assert [row for row in done.errors.splitlines() if "cannot write" in row] == [
        f"rackd: cannot write {tmp_path}/audit/line-1-1.audit"]
    assert done.output.startswith("rack-audit 2 line 1\n")
    check(run, server, tmp_path, done.output.encode())
    assert done.output.encode().startswith(whole_rows(tmp_path / "audit" / "line-1-1.audit"))


def test_clock_ends_with_the_sessions(serve, run, tmp_path):
    """With `--sessions` the program ends with its last session, though its clocks have passes of the lines."""
    server = serve(rack(*(line(number, slave(7, device="counter")) for number in (1, 2))), "--sessions", 1, "--tick", 10,
                   "--step", 10, "--audit", tmp_path / "audit")
    Poller(server, 1, 7).exchanges(50).close()
    with server.operator() as operator:
        wait_for(lambda: operator.ask("show 7").startswith("show 7 WaitPrm none in "))
    connect(server.ports[2].listen).close()
    connect(server.ports[2].operator).close()
    done = server.wait()
    assert done.status == 0
    before, *texts = re.split(r"(?m)^(?=rack-audit )", done.output)
    assert before == ""
    assert [text.split("\n")[0] for text in texts] == ["rack-audit 2 line 1", "rack-audit 2 line 2"]
    for text in texts:
        check(run, server, tmp_path, text.encode())
    assert re.search(r"(?m)^\d+ tick \d+ \| none \| released 7$", texts[0])
