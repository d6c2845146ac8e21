"""Rows that an operator sends: what is answered, what isn't, and what makes an entry."""
import pytest

from support.clients import answer_to, connect, receive
from support.printed_audits import printed_audits
from support.racks import line, rack, slave

# Octets that an operator sends, and all that is answered before the answer to a row that comes after them.
ROWS = {
    "no-command": (b"nonsense\n", b"fault NotACommand\n"),
    "command-of-scripts": (b"m 1 e5\n", b"fault NotACommand\n"),
    "not-utf-8": (b"\xff\n", b"fault NotACommand\n"),
    "longest": (b"x" * 1024 + b"\n", b"fault NotACommand\n"),
    "too-long": (b"x" * 1025 + b"\n", b"fault TooLong\n"),
    "comment": (b"# a comment\n", b""),
    "empty": (b"\n", b""),
    "comment-and-empty": (b"# a comment\n\nowned 3\n", b"owned\n"),
    "several-at-once": (b"owned 1\nnonsense\nowned 2\n", b"owned\nfault NotACommand\nowned\n"),
}


@pytest.mark.parametrize("rows, answers", ROWS.values(), ids=ROWS)
def test_answers(serve, run, tmp_path, rows, answers):
    """Nothing else is answered, and nothing of it makes an entry."""
    server = serve(rack(), "--until-input-ends", piped=True)
    operator, wanted = connect(server.ports[1].operator), answers + b"show 5 WaitPrm none in 0000 out 0000 wd off\n"
    operator.send(rows + b"show 5\n")
    assert receive(operator, len(wanted)) == wanted
    operator.close()
    server.end_input()
    assert printed_audits(run, server.rack, server.wait().output, tmp_path) == {1: []}


def test_row_in_pieces(serve):
    """The octets of a row may come one at a time. A row without its LF does nothing."""
    server = serve(rack())
    operator = connect(server.ports[1].operator)
    with server.operator() as other:
        for octet in b"in 5 aa55":
            operator.send(bytes([octet]))
            assert answer_to(other, "show 5") == "show 5 WaitPrm none in 0000 out 0000 wd off"
        operator.send(b"\n")
        assert receive(operator, 5) == b"done\n"
        operator.send(b"in 5 0000")
        assert answer_to(other, "show 5") == "show 5 WaitPrm none in aa55 out 0000 wd off"


def test_second_operator_beside_the_first(serve):
    server = serve(rack())
    with server.operator() as first:
        assert answer_to(first, "in 5 aa55") == "done"
        second = server.operator()
        assert answer_to(second, "show 5") == "show 5 WaitPrm none in aa55 out 0000 wd off"
        assert answer_to(first, "in 5 0000") == "done"
    assert answer_to(second, "show 5") == "show 5 WaitPrm none in 0000 out 0000 wd off"


# Slave 5 counts, slave 6 mirrors its outputs, and slave 7 is still.
DEVICES = rack(line(1, slave(7), slave(6, device="mirror"), slave(5, device="counter"), capacity=1000))
# Rows of an operator, and what master 1 sends to slave 6: Set_Prm, Chk_Cfg and Data_Exchange. Each with its answer.
STEPS = [
    ("in 5 00ff", "done"),
    ("step", "stepped 2"),
    ("show 5", "show 5 WaitPrm none in 0100 out 0000 wd off"),
    ("show 6", "show 6 WaitPrm none in 0000 out 0000 wd off"),
    ("m 1 680c0c6886816d3d3e8802050b80a101ab16", "1: reply e5 Done"),
    ("m 1 6807076886815d3e3e21111216", "1: reply e5 Done"),
    ("m 1 6805056806017d1234ca16", "1: reply 6805056801060800000f16 Done"),
    ("step", "stepped 2"),
    ("show 5", "show 5 WaitPrm none in 0101 out 0000 wd off"),
    ("show 6", "show 6 DataExch 1 in 1234 out 1234 wd 10"),
    ("show 7", "show 7 WaitPrm none in 0000 out 0000 wd off"),
    ("halt", "released 6"),
    ("step", "stepped 0"),
    ("show 5", "show 5 WaitPrm none in 0101 out 0000 wd off"),
]


def test_devices_step_as_in_a_script(serve, run, tmp_path):
    """A rack that is served gives the answers and the journal of a script with the same rows."""
    server = serve(DEVICES, "--until-input-ends", piped=True)
    with server.master(1) as master, server.operator() as operator:
        for row, answer in STEPS:
            if row.startswith("m 1 "):
                assert master.raw(bytes.fromhex(row[4:])).hex() == answer.split(" ")[2], row
            else:
                assert answer_to(operator, row) == answer
    server.end_input()
    journal = printed_audits(run, server.rack, server.wait().output, tmp_path)[1]
    script = tmp_path / "script"
    script.write_text("".join(f"{row}\n" for row, _ in STEPS) + "journal\n", encoding="ascii")
    played = run("run", server.rack, script)
    assert played.status == 0
    assert played.output.splitlines() == [*(answer for _, answer in STEPS), "rack-audit 2 line 1", *journal]
    assert len(journal) == 9
