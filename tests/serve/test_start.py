"""What `rackd serve` does before it is ready: arguments and rack files that it refuses, and ports that it can't listen on."""
import re

import pytest

from rackd.operator import Operator
from support.clients import answer_to, exchange, free_ports, has_ended, open_master
from support.command_lines import without_row_of_file
from support.racks import line, rack, slave
from support.telegrams import fresh_diagnosis, slave_diag

# Arguments of `serve` that are refused, and the first row on standard error. RACK is a rack file, NONE no file.
REFUSED_ARGUMENTS = {
    "nothing": ("", "error: the following required arguments were not provided:"),
    "no-rack": ("--sessions 1", "error: the following required arguments were not provided:"),
    "two-racks": ("RACK RACK", "error: unexpected argument 'RACK' found"),
    "number-without-option": ("RACK 1", "error: unexpected argument '1' found"),
    "half-an-option": ("RACK --session 1", "error: unexpected argument '--session' found"),
    "no-number": ("RACK --sessions", "error: a value is required for '--sessions <N>' but none was supplied"),
    "no-sessions": ("RACK --sessions 0", "error: invalid value '0' for '--sessions <N>': expected a number from 1 to 1000000"),
    "too-many": ("RACK --sessions 1000001", "error: invalid value '1000001' for '--sessions <N>': expected a number from 1 to 1000000"),
    "no-digits": ("RACK --sessions x", "error: invalid value 'x' for '--sessions <N>': expected a number from 1 to 1000000"),
    "negative": ("RACK --sessions -1", "error: unexpected argument '-1' found"),
    "twice": ("RACK --sessions 1 --sessions 1", "error: the argument '--sessions <N>' cannot be used multiple times"),
    "before-the-file": ("NONE --sessions 0", "error: invalid value '0' for '--sessions <N>': expected a number from 1 to 1000000"),
}


@pytest.mark.parametrize("words, first_row", REFUSED_ARGUMENTS.values(), ids=REFUSED_ARGUMENTS)
def test_arguments_that_are_refused(run, tmp_path, words, first_row):
    path = tmp_path / "rack.toml"
    path.write_text(rack(), encoding="utf-8")
    places = {"RACK": str(path), "NONE": str(tmp_path / "none.toml")}
    done = run("serve", *(places.get(word, word) for word in words.split()))
    assert (done.status, done.output) == (2, "")
    assert done.errors.replace(str(path), "RACK").splitlines()[0] == first_row


def without(text, key):
    """Returns the text of a rack file without the rows of a key."""
    return re.sub(rf"^{key} = .*\n", "", text, flags=re.MULTILINE)


# Rack files that `serve` refuses, and the rows on standard error. FILE is the path of the file.
REFUSED_RACKS = {
    "not-utf-8": (b"\xff\n", "cannot read FILE\n  it is not UTF-8 text"),
    "not-toml": ("[[line", "rack NotToml\n  row 1: unclosed table, expected `]`"),
    "no-listen": (without(rack(), "listen"), 'rack BadKey\n  line 1, key "listen": missing'),
    "no-operator": (without(rack(), "operator"), 'rack BadKey\n  line 1, key "operator": missing'),
    "no-listen-of-second": (rack(line(1, 5), without(line(2, 5), "listen")), 'rack BadKey\n  line 2, key "listen": missing'),
    "no-operator-of-second": (rack(line(1, 5), without(line(2, 5), "operator")),
                              'rack BadKey\n  line 2, key "operator": missing'),
    "one-number-before-a-port": (without(rack(line(1, 5), line(1, 5)), "listen"),
                                 "rack TwiceLine\n  line 2: number 1 is used twice, also by line 1"),
    "line-before-a-port": (without(rack(line(1, 5, masters=[1, 5])), "listen"),
                           "rack line 1 TwiceAddress\n  line 1, slave 1: address 5 is that of a master, too"),
}


@pytest.mark.parametrize("content, rows", REFUSED_RACKS.values(), ids=REFUSED_RACKS)
def test_rack_files_that_are_refused(run, tmp_path, content, rows):
    path = tmp_path / "rack.toml"
    path.write_bytes(content if isinstance(content, bytes) else content.encode())
    assert without_row_of_file(run("serve", path)) == (2, "", f"rackd: {rows.replace('FILE', str(path))}\n")


@pytest.mark.parametrize("name, cause", [("none", "no such file or folder"), (".", "it is a folder, not a file")], ids=["missing", "folder"])
def test_paths_that_are_no_file(run, tmp_path, name, cause):
    path = tmp_path / name
    assert run("serve", path) == (2, "", f"rackd: cannot read {path}\n  {cause}\n")


def test_standard_output_that_is_full(start_server):
    server = start_server(rack(), wrapper=["/bin/sh", "-c", 'exec "$@" >/dev/full', "sh"])
    assert server.wait() == (4, "", "rackd: cannot write\n")


def test_one_port_for_masters_and_operators(run, tmp_path):
    port, = free_ports(1)
    path = tmp_path / "rack.toml"
    path.write_text(rack(line(1, 5, listen=port, operator=port)), encoding="utf-8")
    assert run("serve", path) == (2, "", f"rackd: cannot listen on {port}\n  the rack file has this port twice\n")


def test_ports_that_are_taken(serve, run, tmp_path):
    """The ports are tried in the order of the numbers of lines, and of each line `listen` before `operator`."""
    taken = serve(rack(line(2, 5), line(1, 5))).ports
    path = tmp_path / "rack.toml"
    for text, port in [
        (rack(line(1, 5, listen=taken[1].listen)), taken[1].listen),
        (rack(line(1, 5, listen=taken[1].listen, operator=taken[1].operator)), taken[1].listen),
        (rack(line(2, 5, listen=taken[1].operator), line(1, 5, operator=taken[2].operator)), taken[2].operator),
    ]:
        path.write_text(text, encoding="utf-8")
        assert run("serve", path) == (2, "", f"rackd: cannot listen on {port}\n  another program uses this port\n")


def test_ports_of_the_rack_file(serve):
    """The ports of a rack file are those that clients connect to. They are free at once after the program has closed sessions."""
    ports = free_ports(4)
    text = rack(line(2, 5, listen=ports[2], operator=ports[3]), line(1, 5, listen=ports[0], operator=ports[1]))
    for _ in range(3):
        server = serve(text, "--until-input-ends", piped=True, names_ports=False)
        sessions = [open_master(port, 1) for port in (ports[0], ports[2])]
        for session in sessions:
            assert exchange(session, slave_diag(1, 5)) == fresh_diagnosis(1, 5)
        operators = [Operator(port) for port in (ports[1], ports[3])]
        for operator in operators:
            assert answer_to(operator, "owned 1") == "owned"
        server.end_input()
        assert server.wait().status == 0
        assert all(has_ended(session) for session in sessions)


@pytest.mark.parametrize("words", [[], ["--sessions", "1"], ["--sessions", "1000000"]], ids=["none", "least", "most"])
def test_numbers_of_sessions_that_are_accepted(serve, words):
    server = serve(rack(line(1, slave(5))), *words)
    assert answer_to(server.operator(), "owned 1") == "owned"
