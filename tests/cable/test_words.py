"""Words of the command line of `rackd cable`, and ports and files that it can't have."""
import socket

import pytest

CHANCE = "a chance is a percentage from 0 to 100 with at most four decimals, as 1.5"
MISSING = "the following required arguments were not provided:"


def test_port_in_use(run):
    with socket.create_server(("127.0.0.1", 0)) as listener:
        port = listener.getsockname()[1]
        done = run("cable", "7101", "--listen", port)
    assert done == (2, "", f"rackd: cannot listen on {port}\n  another program uses this port\n")


def test_file_of_ports_that_cannot_be_made(run, tmp_path):
    path = tmp_path / "no" / "file"
    done = run("cable", "7101", "--listen", "0", "--ports", path)
    assert done == (2, "", f"rackd: cannot make {path}\n  the folder of this file does not exist\n")


WRONG = [
    ("", MISSING),
    ("7101", MISSING),
    ("0 --listen 1", "invalid value '0' for '<PORT>': expected a number from 1 to 65535"),
    ("65536 --listen 1", "invalid value '65536' for '<PORT>': expected a number from 1 to 65535"),
    ("07101 --listen 1", "invalid value '07101' for '<PORT>': a number has no sign and no leading zero"),
    ("7101 --listen 65536", "invalid value '65536' for '--listen <PORT2>': expected a number from 0 to 65535"),
    ("7101 --listen 0 --lose 100.1", f"invalid value '100.1' for '--lose <P>': {CHANCE}"),
    ("7101 --listen 0 --lose 101", f"invalid value '101' for '--lose <P>': {CHANCE}"),
    ("7101 --listen 0 --spoil 1.12345", f"invalid value '1.12345' for '--spoil <P>': {CHANCE}"),
    ("7101 --listen 0 --cut 1.", f"invalid value '1.' for '--cut <P>': {CHANCE}"),
    ("7101 --listen 0 --cut .5", f"invalid value '.5' for '--cut <P>': {CHANCE}"),
    ("7101 --listen 0 --cut 01", f"invalid value '01' for '--cut <P>': {CHANCE}"),
    ("7101 --listen 0 --late x 5", f"invalid value 'x' for '--late <P> <MS>': {CHANCE}"),
    ("7101 --listen 0 --late 5 60001",
     "invalid value '60001' for '--late <P> <MS>': MS is a number of milliseconds, 0 to 60000,"),
    ("7101 --listen 0 --seed x", "invalid value 'x' for '--seed <N>': expected a number from 0 to 18446744073709551615"),
    ("7101 --listen 0 --resync 0",
     "invalid value '0' for '--resync <MS>': expected a number of milliseconds from 1 to 60000, without a unit"),
    ("7101 --listen 0 --delay 60001",
     "invalid value '60001' for '--delay <MS>': expected a number of milliseconds from 0 to 60000, without a unit"),
    ("7101 --listen 0 --requests --replies", "the argument '--requests' cannot be used with '--replies'"),
    ("7101 --listen 0 --lost 1", "unexpected argument '--lost' found"),
]


@pytest.mark.parametrize("words, cause", WRONG, ids=[words or "no words" for words, _ in WRONG])
def test_wrong_words(run, words, cause):
    """Wrong words have status 2, the cause, and a hint."""
    done = run("cable", *words.split())
    assert done[:2] == (2, "")
    assert done.errors.split("\n", maxsplit=1)[0].startswith(f"error: {cause}")
    assert "try '--help'" in done.errors or "rackd cable --help" in done.errors


def test_late_without_milliseconds(run):
    assert run("cable", "7101", "--listen", "0", "--late", "5")[:2] == (2, "")
