"""Programs that are stopped and go on: a signal that interrupts a call ends no session, of `serve` and of `operate`."""
import signal
import subprocess
import time

from support.clients import connect, receive
from support.processes import PATIENCE
from support.racks import usual_rack
from support.telegrams import ACCEPTED, fresh_diagnosis, slave_diag

# How often a program is stopped and goes on, and for how many seconds.
STOPS, STOPPED = 30, 0.02


def stop_often(process):
    """Stops a program and has it go on, thirty times."""
    for _ in range(STOPS):
        process.send_signal(signal.SIGSTOP)
        time.sleep(STOPPED)
        process.send_signal(signal.SIGCONT)
        time.sleep(STOPPED)


def test_stopped_server_goes_on(serve):
    """No session ends: not those of masters and operators that wait, nor one without an address."""
    server = serve(usual_rack(1, 2))
    masters = [server.master(address, line) for line in (1, 2) for address in (1, 2)]
    operators = [server.operator(line) for line in (1, 2)]
    silent = connect(server.ports[1].listen)
    stop_often(server.process)
    for master in masters:
        assert master.raw(slave_diag(master.address, 5, 0x4D)) == fresh_diagnosis(master.address, 5)
    for operator in operators:
        assert operator.ask("tick 1") == "released"
    silent.send(b"\x03")
    assert receive(silent, 1) == ACCEPTED


def test_stopped_operator_goes_on(serve, program):
    """`rackd operate` that is stopped and goes on while it waits for its input gets its answers."""
    port = serve(usual_rack()).ports[1].operator
    with subprocess.Popen([program, "operate", str(port)], stdin=subprocess.PIPE, stdout=subprocess.PIPE, bufsize=0) as operate:
        try:
            operate.stdin.write(b"tick 1\n")
            assert operate.stdout.readline() == b"released\n"
            stop_often(operate)
            operate.stdin.write(b"show 5\n")
            assert operate.stdout.readline() == b"show 5 WaitPrm none in 0000 out 0000 wd off\n"
            operate.stdin.close()
            assert operate.wait(PATIENCE) == 0
        finally:
            operate.kill()


def test_stopped_operator_gets_its_answer(serve, program):
    """`rackd operate` that is stopped and goes on while it waits for an answer gets it."""
    server = serve(usual_rack())
    command = [program, "operate", str(server.ports[1].operator)]
    with subprocess.Popen(command, stdin=subprocess.PIPE, stdout=subprocess.PIPE, bufsize=0) as operate:
        try:
            operate.stdin.write(b"tick 1\n")
            assert operate.stdout.readline() == b"released\n"
            server.send_signal(signal.SIGSTOP)
            operate.stdin.write(b"tick 2\n")
            stop_often(operate)
            server.send_signal(signal.SIGCONT)
            assert operate.stdout.readline() == b"released\n"
            operate.stdin.close()
            assert operate.wait(PATIENCE) == 0
        finally:
            operate.kill()
