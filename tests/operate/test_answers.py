"""Lines of `rackd operate` from files, pipes and terminals: which are sent, when, and which rows are written for them."""
import itertools
import threading

import pytest

from support.operating import END_OF_INPUT, OperateAtTerminal
from support.processes import PATIENCE
from support.racks import usual_rack

# The most octets of a line that is no fault, and by which memory may grow.
MOST_OCTETS, MOST_GROWTH = 1024, 4_000_000


def comment(count, character="x"):
    """Returns a comment of this number of octets."""
    return b"# " + character.encode() * ((count - 2) // len(character.encode()))


# Lines with their answers. These are nearly empty, or nearly comments.
NEARLY_COMMENTS = (
    (b" ", "fault NotACommand"),
    (b"\r", "fault NotACommand"),
    (b" # in 5 aa", "fault NotACommand"),
    (b"# \xff", "fault NotACommand"),
    (b"# \xc3", "fault NotACommand"),
    (b"# \xed\xa0\x80", "fault NotACommand"),
    (comment(MOST_OCTETS + 1), "fault TooLong"),
    (comment(MOST_OCTETS + 2, "\xe4"), "fault TooLong"),
)
# These are answered so if master 1 has locked slave 5, or not at all.
SHORT_LINES = (
    (b"owned 1", "owned 5"),
    (b"in 5 aa55", "done"),
    (b"in 5 AA56", "done"),
    (b"", None),
    (b"show 5", "show 5 WaitCfg 1 in aa56 out 0000 wd 10"),
    (b"in 5 aa", "refused WrongLength"),
    (b"# in 5 aa", None),
    (b"in 9 aa55", "refused NoStation"),
    (b"in 5 aa5", "fault NotACommand"),
    (b"#", None),
    (b"diag 5 es 0301ff", "done"),
    (b"diag 9 - -", "refused NoStation"),
    (b"diag 5 se 00", "fault NotACommand"),
    (b"busy 5 default on", "done"),
    (b"busy 5 60 off", "done"),
    (b"busy 5 7 on", "refused UnknownPoint"),
    (b"busy 5 256 on", "fault NotACommand"),
    (b"tick 0", "released"),
    (b"tick 9", "released"),
    (b"show 5", "show 5 WaitCfg 1 in aa56 out 0000 wd 1"),
    (b"tick 1", "released 5"),
    (b"tick 4294967295", "released"),
    (b"tick 4294967296", "fault NotACommand"),
    (b"step", "stepped 2"),
    (b"step", "stepped 2"),
    (b"show 7", "show 7 WaitPrm none in 0002 out 0000 wd off"),
    (b"show 9", "refused NoStation"),
    (b"owned 1", "owned"),
    (b"owned 256", "fault NotACommand"),
    (b"journal", "fault NotACommand"),
    (b"line 1", "fault NotACommand"),
    (b"m 1 E5", "fault NotACommand"),
    (b"show 5 ", "fault NotACommand"),
    (b"show 5\r", "fault NotACommand"),
    (b"show 5\xff", "fault NotACommand"),
    (b"# \xc3\xa4 \xf0\x9f\x98\x80", None),
    (b"#\0", None),
    (comment(MOST_OCTETS), None),
    (comment(MOST_OCTETS, "\xe4"), None),
    (b"x" * MOST_OCTETS, "fault NotACommand"),
    (b"x" * (MOST_OCTETS + 1), "fault TooLong"),
    (b"\xff" * (MOST_OCTETS + 1), "fault TooLong"),
    *NEARLY_COMMENTS,
)
LAST_LINES = (
    (b"halt", "released"),
    (b"halt", "refused Halted"),
    (b"tick 1", "refused Halted"),
    (b"in 5 aa55", "refused Halted"),
    (b"step", "stepped 0"),
    (b"show 5", "show 5 WaitPrm none in aa56 out 0000 wd off"),
    (b"owned 1", "owned"),
)
LONG_LINES = (
    # They are longer than what a terminal hands on, and than what a pipe has room for.
    (b"x" * 5000, "fault TooLong"),
    (comment(100000), "fault TooLong"),
)
# What is typed at once, and which rows are then written.
PIECES = (
    (b"sh", ()),
    (b"ow 5\nowned", ("show 5 WaitCfg 1 in 0000 out 0000 wd 10",)),
    (b" 1\nin 5 1", ("owned 5",)),
    (b"234", ()),
    (b"\n# \xc3", ("done",)),
    (b"\xa4 a comment\nsho", ()),
    (b"w 5", ()),
    (b"\n\n\n# tick 1\nowned 2\nin 9 00\n# \xff\nstep", ("show 5 WaitCfg 1 in 1234 out 0000 wd 10", "owned",
                                                        "refused NoStation", "fault NotACommand")),
    (b"\n", ("stepped 2",)),
    (comment(MOST_OCTETS), ()),
    (b"x", ()),
    (b"\nowned 1\nowned 3\nowned 1\n", ("fault TooLong", "owned 5", "owned", "owned 5")),
)
# Input whose last line has no LF, and what is written.
WITHOUT_END = {
    "one": (b"owned 1", "owned 5\n"),
    "two": (b"owned 1\nowned 2", "owned 5\nowned\n"),
    "comment": (b"# owned 1", ""),
    "no text": (b"# \xff", "fault NotACommand\n"),
    "a long comment": (comment(MOST_OCTETS + 1), "fault TooLong\n"),
    "no command": (b"owned", "fault NotACommand\n"),
}


def test_script_of_a_file(operate, locked, tmp_path):
    """A file of all operator lines, among them wrong, empty and too long ones and comments, is answered in order."""
    lines = SHORT_LINES + LONG_LINES + LAST_LINES
    (tmp_path / "script").write_bytes(b"".join(line + b"\n" for line, _ in lines))
    with open(tmp_path / "script", "rb") as script:
        client = operate(locked, stdin=script)
        assert client.output.rest().splitlines() == [answer for _, answer in lines if answer]
        client.ends_with(0)


def test_typed_at_a_terminal(operate, locked):
    """The same lines at a terminal, one by one: each is answered before the next one is typed."""
    client = operate(locked, kind=OperateAtTerminal)
    for line, answer in SHORT_LINES + LAST_LINES:
        client.write(line + b"\n")
        if answer:
            assert (line[:20], client.output.row()) == (line[:20], answer)
    client.end_input()
    client.ends_with(0)


@pytest.mark.parametrize("text, output", [
    pytest.param(b"owned 1", "owned\n", id="one"),
    pytest.param(b"owned 1\nowned", "owned\nfault NotACommand\n", id="no command"),
    pytest.param(b"# own", "", id="comment")])
def test_last_line_at_a_terminal(operate, serve, text, output):
    """At a terminal too a last line without its LF is answered, and the end of the input behind it ends the program."""
    client = operate(serve(usual_rack()).ports[1].operator, kind=OperateAtTerminal)
    client.write(text + END_OF_INPUT)
    client.end_input()
    client.ends_with(0, output=output)


def test_input_in_pieces(operate, locked):
    """Lines that are cut, and several in one piece, are answered as soon as they are whole."""
    client = operate(locked)
    client.wait_until_connected()
    for piece, answers in PIECES:
        client.write(piece)
        assert client.output.rows(len(answers)) == list(answers)
        client.wait_until_asleep()
        assert client.has_read_input()
        assert client.output.so_far() == ""
    client.end_input()
    client.ends_with(0)


def test_piece_of_a_line_is_not_sent(operate, port):
    """Nothing of a line is sent before it is whole."""
    client = operate(port.number)
    port.accept()
    client.wait_until_connected()
    for piece in (b"ow", b"ned", b" 1"):
        client.write(piece)
        client.wait_until_asleep()
        assert client.has_read_input()
        assert port.so_far() == b""
    client.write(b"\n")
    assert port.row() == b"owned 1"


@pytest.mark.parametrize("text, output", WITHOUT_END.values(), ids=WITHOUT_END)
def test_last_line_without_its_end(operate, locked, text, output):
    """A last line without its LF is answered at the end of the input."""
    client = operate(locked)
    client.write_all(text)
    client.ends_with(0, output=output)


def test_very_many_lines(operate, serve):
    """No line is lost if very many come at once, and no answer comes in another's place."""
    numbers = range(10_000)
    text = "".join(f"in 5 {number:04x}\nshow 5\n" for number in numbers).encode()
    answers = "".join(f"done\nshow 5 WaitPrm none in {number:04x} out 0000 wd off\n" for number in numbers)
    client = operate(serve(usual_rack()).ports[1].operator)
    typing = threading.Thread(target=client.write_all, args=[text], daemon=True)
    typing.start()
    for number, (expected, row) in enumerate(itertools.zip_longest(answers.splitlines(), client.output.rest().splitlines()), 1):
        assert (number, row) == (number, expected)
    typing.join(PATIENCE)
    client.ends_with(0)


def test_one_line_at_a_time(operate, port):
    """A line is sent as it is, once the one before is answered and no sooner. What is no comment is waited for too."""
    lines = [b"owned 1", *(line for line, _ in NEARLY_COMMENTS), b"owned 2"]
    client = operate(port.number)
    client.write(b"".join(line + b"\n" for line in lines))
    port.accept()
    for number, line in enumerate(lines):
        assert port.row() == line
        client.wait_until_asleep()
        assert port.so_far() == b""
        assert client.output.so_far() == ""
        port.answer(f"row {number}")
        assert client.output.row() == f"row {number}"
    client.wait_until_asleep()
    assert port.so_far() == b""
    client.end_input()
    client.ends_with(0)


def test_answers_of_any_text(operate, port):
    """What is no command for this program is an answer too: it only counts the rows."""
    client = operate(port.number)
    port.accept()
    for answer in ("", " ", "in 5 aa", "# no comment", "x" * 1000):
        client.write(b"owned 1\n")
        assert port.row() == b"owned 1"
        port.answer(answer)
        assert client.output.row() == answer


def test_very_long_answer(operate, port):
    """An answer of 65,536 octets is written. A longer one ends the program with status 2, before its end has come."""
    client = operate(port.number)
    port.accept()
    client.write(b"owned 1\nowned 2\n")
    assert port.row() == b"owned 1"
    port.answer("x" * 65_536)
    assert client.output.row() == "x" * 65_536
    assert port.row() == b"owned 2"
    port.send(b"x" * 65_537)
    client.ends_with(2, f"rackd: an answer of port {port.number} has more than 65536 octets")


def test_very_long_line(operate, serve):
    """A line of very many octets takes no memory. The port answers that it is too long, and the next line is sent."""
    count = 32_000_000
    client = operate(serve(usual_rack()).ports[1].operator)
    assert client.ask("tick 1") == "released"
    before = client.peak_memory()
    for octet in b"x", b"#":
        client.write(octet * count + b"\n")
        assert client.output.row() == "fault TooLong"
        assert client.ask("tick 1") == "released"
    client.write(b"x" * count)
    client.wait_until_asleep()
    assert client.has_read_input()
    assert client.peak_memory() - before < MOST_GROWTH
    client.end_input()
    assert client.output.row() == "fault TooLong"
    client.ends_with(0)


@pytest.mark.parametrize("count", [65_536, 65_537, 100_000])
def test_what_is_sent_of_a_long_line(operate, port, count):
    """Of a line of more than 65,536 octets this number and one more are sent, with an LF."""
    client = operate(port.number)
    port.accept()
    client.write(b"x" * count + b"\nowned 1\n")
    assert port.row() == b"x" * min(count, 65_537)
    port.answer("fault TooLong")
    assert port.row() == b"owned 1"
