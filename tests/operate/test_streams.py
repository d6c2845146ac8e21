"""Standard streams of `rackd operate` that are closed from the start: what is for them doesn't go to the port instead."""
import time

import pytest

from support.played_ports import PlayedPort

# Seconds after which a note would have been written.
NOTED = 2.3


def test_output_is_closed(operate, port):
    client = operate(port.number, closed=1)
    port.accept()
    client.write(b"owned 1\n")
    assert port.row() == b"owned 1"
    port.answer("owned")
    assert port.rest() == b""
    client.ends_with(4, "rackd: cannot write", output=None)


def test_errors_are_closed(operate, port):
    """The note that an answer is waited for doesn't go to the port."""
    client = operate(port.number, closed=2)
    port.accept()
    client.write(b"owned 1\nowned 2\n")
    assert port.row() == b"owned 1"
    time.sleep(NOTED)
    client.wait_until_asleep()
    port.answer("owned")
    assert client.output.row() == "owned"
    assert port.row() == b"owned 2"
    port.answer("owned 7")
    client.end_input()
    client.ends_with(0, output="owned 7\n")
    assert port.rest() == b""


def test_input_is_closed(operate, port):
    client = operate(port.number, closed=0)
    port.accept()
    client.ends_with(0)
    assert port.rest() == b""


@pytest.mark.parametrize("closed", [0, 1])
def test_nobody_listens(operate, closed):
    with PlayedPort() as port:
        number = port.number
    operate(number, closed=closed).ends_with(2, f"rackd: cannot connect to {number}", "  no program listens on this port")
