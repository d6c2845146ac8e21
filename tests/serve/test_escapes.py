"""Characters that control a terminal, change the direction of text or hide are escaped in what programs report."""
import socket
import subprocess

import pytest

from support.clients import answer_to
from support.processes import PATIENCE, Done
from support.racks import rack

HIDDEN = "".join(map(chr, (*range(0x200B, 0x2010), *range(0x202A, 0x202F), *range(0x2066, 0x206A), 0xFEFF)))
# Each is next to a hidden character, or no character of one octet.
SHOWN = "".join(map(chr, (0xE9, 0x200A, 0x2010, 0x2029, 0x202F, 0x2065, 0x206A, 0xFEFE, 0xFF00)))
# What a path or a word has, and how it is reported.
REPORTED = {
    "control": ("\n\x1b[1m", "\\n\\x1b[1m"),
    "hidden": (HIDDEN, "".join(f"\\u{{{ord(each):x}}}" for each in HIDDEN)),
    "shown": (SHOWN, SHOWN),
}
each_of_them = pytest.mark.parametrize(("text", "reported"), REPORTED.values(), ids=REPORTED)


@pytest.fixture(name="rack_file")
def fixture_rack_file(tmp_path):
    """The path of a rack file."""
    path = tmp_path / "rack.toml"
    path.write_text(rack(), encoding="utf-8")
    return path


@each_of_them
def test_path(run, rack_file, text, reported):
    """The path of a file that can't be read."""
    assert run("check", f"no{text}file", rack_file) == Done(2, "", f"rackd: cannot read no{reported}file\n  no such file or folder\n")


@each_of_them
def test_word(run, text, reported):
    """A first word that is no command."""
    done = run(f"ser{text}ve")
    assert (done.status, done.output) == (2, "")
    assert f"ser{reported}ve" in done.errors
    assert text not in done.errors or text == reported


def test_folder(run, rack_file, tmp_path):
    """The path of a folder that can't be made."""
    (tmp_path / "taken").write_text("")
    assert run("serve", rack_file, "--audit", f"{tmp_path}/taken/\tfolder") == Done(
        2, "", f"rackd: cannot make {tmp_path}/taken/\\tfolder\n  a part of the path before the last '/' is not a folder\n")


def test_key(run, rack_file, tmp_path):
    """A key of a rack file."""
    (tmp_path / "key").write_text('"a\\nb" = 1\n')
    done = run("check", tmp_path / "key", rack_file)
    assert done.status == 2
    assert "a\\x0ab" in done.errors
    assert done.errors.count("\n") == 2


def test_row_of_an_audit_text(run, rack_file, tmp_path):
    """An outcome of an audit text that is not the one of the rack."""
    (tmp_path / "text").write_text("rack-audit 2 line 1\n1 tick 1 | none | rel\u202edesae\n", encoding="utf-8")
    done = run("check", rack_file, tmp_path / "text")
    assert done.status == 1
    assert "desae" in done.errors
    assert "\u202e" not in done.output + done.errors


def test_row_of_the_log(serve):
    """A row of an operator that is no command."""
    server = serve(rack(), "--log", "--until-input-ends", piped=True)
    with server.operator() as operator:
        assert answer_to(operator, "tick \u202e1") == "fault NotACommand"
    server.end_input()
    log = server.wait().errors
    assert "tick \\u{202e}1" in log
    assert "\u202e" not in log


@pytest.fixture(name="played_port")
def fixture_played_port():
    """A listener that plays the port of an operator."""
    with socket.create_server(("127.0.0.1", 0)) as listener:
        listener.settimeout(PATIENCE)
        yield listener


def test_answer_to_an_operator(program, played_port):
    """What a port sends that is no rack's can't control a terminal."""
    command = [program, "operate", str(played_port.getsockname()[1])]
    with subprocess.Popen(command, stdin=subprocess.PIPE, stdout=subprocess.PIPE, bufsize=0) as operate:
        try:
            connection, _ = played_port.accept()
            with connection:
                operate.stdin.write(b"show 5\n")
                assert connection.recv(100) == b"show 5\n"
                connection.sendall(b"a\x1b[2Jb\xff 'c\\\r\n")
                assert operate.stdout.readline() == b"a\\x1b[2Jb\\xff 'c\\\\x0d\n"
        finally:
            operate.kill()
