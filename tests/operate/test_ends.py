"""How `rackd operate` ends: with its input, with the port, by a signal, and before it has begun."""
import os
import signal
import socket
import subprocess
import threading

import pytest

from support.operating import ended
from support.played_ports import PlayedPort
from support.premises import measured, suppose, tried_again
from support.processes import PATIENCE
from support.racks import usual_rack
from support.watched_calls import CallWatch

# Both ways in which a port ends.
both_ends = pytest.mark.parametrize("end", [PlayedPort.end, PlayedPort.reset], ids=["closed", "reset"])


@pytest.mark.parametrize("text, answers", [
    pytest.param(b"", (), id="nothing"), pytest.param(b"# owned 1\n\n", (), id="comments"),
    pytest.param(b"owned 1\n", ("owned",), id="one"), pytest.param(b"owned 1\nowned 2", ("owned", "owned 3"), id="two")])
def test_end_of_input(operate, port, text, answers):
    """The end of the input ends the program with status 0, once all is answered and no sooner, and the connection."""
    client = operate(port.number)
    port.accept()
    client.write_all(text)
    for answer in answers:
        assert port.command().startswith(b"owned")
        client.wait_until_asleep()
        assert client.process.poll() is None
        port.answer(answer)
    client.ends_with(0, output="".join(f"{row}\n" for row in answers))
    assert [row for row in port.rest().split(b"\n") if row and not row.startswith(b"#")] == []


def test_no_input(operate, port):
    operate(port.number, stdin=subprocess.DEVNULL).ends_with(0)


@tried_again
def test_port_ends_right_behind_an_answer(operate, tmp_path):
    """If the port ends right behind the answer to the last line of a file the status is 0.

    That no line follows is read only behind that answer. An end of the input within 100 ms counts as before that of the port.
    """
    (tmp_path / "script").write_text("owned 1\nowned 2", encoding="ascii")
    for number in range(15):
        with PlayedPort() as port, open(tmp_path / "script", "rb") as script:
            client = operate(port.number, stdin=script)
            port.accept()
            assert port.row() == b"owned 1"
            port.answer("owned")
            assert port.row() == b"owned 2"
            with measured(has_ending=True) as found:
                port.answer(f"owned {number}")
                port.end()
                status = client.wait()
            suppose(status == 0 or found.held_up < 0.02, f"a process was held up for {found.held_up:.3f} s")
            assert status == 0
            assert client.output.rest() == f"owned\nowned {number}\n"
            assert len(client.errors.rest().splitlines()) <= 1


@both_ends
@pytest.mark.parametrize("text", [b"", b"owned 1\n", b"# own"], ids=["nothing", "line", "part"])
def test_port_ends_with_input_open(operate, port, kind, end, text):
    """If the port ends before the input the program ends with status 2 at once, also if nobody types anything."""
    client = operate(port.number, kind=kind)
    port.accept()
    client.wait_until_connected()
    client.write(text)
    if text.endswith(b"\n"):
        assert port.row() == b"owned 1"
        port.answer("owned")
        assert client.output.row() == "owned"
    client.wait_until_asleep()
    end(port)
    client.ends_with(2, ended(port.number))


def test_serve_ends_with_input_open(operate, serve, kind):
    """The same at a real line, whose program is killed."""
    server = serve(usual_rack())
    client = operate(server.ports[1].operator, kind=kind)
    assert client.ask("owned 1") == "owned"
    server.kill()
    client.ends_with(2, ended(server.ports[1].operator))


@both_ends
@pytest.mark.parametrize("text", [b"# one\n# two\n# three\nowned 1\n", b"owned 1\n" * 15], ids=["comments", "lines"])
def test_port_ends_while_lines_come(operate, port, end, text):
    """If lines come in the moment in which the port ends the program ends in no other way."""
    client = operate(port.number)
    port.accept()
    client.wait_until_connected()
    with client.stopped():
        end(port)
        client.write(text)
    client.ends_with(2, ended(port.number))


class HeldNames(CallWatch):
    """Holds up the call by which a program asks for the address of its end of a connection, until `released` is set."""

    # getsockname
    CALLS = (51,)

    def __init__(self):
        self.has_come, self.released = threading.Event(), threading.Event()
        super().__init__()

    def asked(self, question):
        self.has_come.set()
        self.hold(question, released=self.released)


@both_ends
def test_port_ends_before_the_client_goes_on(operate, port, end):
    """A port that ends right behind its accept has ended, also if the client has not looked at the connection yet."""
    watch = HeldNames()
    client = operate(port.number, before=watch.ask)
    port.accept()
    assert watch.has_come.wait(PATIENCE)
    end(port)
    watch.released.set()
    client.ends_with(2, ended(port.number))


@both_ends
@pytest.mark.parametrize("half", [b"", b"own"], ids=["no answer", "half an answer"])
@pytest.mark.parametrize("has_ended", [False, True], ids=["input open", "input ended"])
def test_port_ends_before_an_answer(operate, port, end, half, has_ended):
    """If the port ends before a line is answered, or before all of the answer has come, the status is 2."""
    client = operate(port.number)
    port.accept()
    if has_ended:
        client.write_all(b"owned 1\nowned 2")
    else:
        client.write(b"owned 1\nowned 2\n")
    assert port.row() == b"owned 1"
    port.answer("owned")
    assert client.output.row() == "owned"
    assert port.row() == b"owned 2"
    port.send(half)
    client.wait_until_asleep()
    end(port)
    client.ends_with(2, ended(port.number))


@pytest.mark.parametrize("streams", [{}, {"stdin": subprocess.DEVNULL}], ids=["input open", "no input"])
def test_nobody_listens(operate, streams):
    """A port at which nobody listens has two rows and status 2."""
    with socket.socket() as nobody:
        nobody.bind(("127.0.0.1", 0))
        port = nobody.getsockname()[1]
        operate(port, **streams).ends_with(2, f"rackd: cannot connect to {port}", "  no program listens on this port")


def test_nobody_listens_and_errors_are_full(operate):
    with socket.socket() as nobody, open("/dev/full", "wb") as full:
        nobody.bind(("127.0.0.1", 0))
        operate(nobody.getsockname()[1], stderr=full).ends_with(2)


def test_input_is_a_folder(operate, port, tmp_path):
    """An input that can't be read has two rows and status 2."""
    folder = os.open(tmp_path, os.O_RDONLY)
    client = operate(port.number, stdin=folder)
    os.close(folder)
    client.ends_with(2, "rackd: cannot read -", "  it is a folder, not a file")


@pytest.fixture(params=["full", "closed"])
def output(request):
    """A standard output that takes nothing: of a full device, or a pipe whose other end is closed."""
    if request.param == "full":
        descriptor = os.open("/dev/full", os.O_WRONLY)
    else:
        reader, descriptor = os.pipe()
        os.close(reader)
    yield descriptor
    os.close(descriptor)


def test_answer_that_cannot_be_written(operate, port, output):
    """If an answer can't be written the program ends with status 4 at once."""
    client = operate(port.number, stdout=output)
    port.accept()
    client.write(b"owned 1\n")
    assert port.row() == b"owned 1"
    port.answer("owned")
    client.ends_with(4, "rackd: cannot write")


def test_nothing_is_to_be_written(operate, port, output):
    client = operate(port.number, stdout=output)
    client.write_all(b"# owned 1\n")
    client.ends_with(0)


def test_end_by_a_signal(operate, serve):
    """A signal ends the program. The line goes on, and serves the next operator."""
    server = serve(usual_rack())
    client = operate(server.ports[1].operator)
    assert client.ask("owned 1") == "owned"
    client.wait_until_asleep()
    client.send_signal(signal.SIGTERM)
    client.ends_with(-signal.SIGTERM)
    client = operate(server.ports[1].operator)
    assert client.ask("in 5 aa55") == "done"
    client.end_input()
    client.ends_with(0)
    assert server.process.poll() is None
