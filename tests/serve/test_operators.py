"""Several operators of one line at a time: each is answered in order, and one that is silent gives its place up."""
import re
import time

from support.clients import connect, receive
from support.line_time import at_once
from support.processes import PATIENCE
from support.racks import line, rack, usual_rack

# How many operators of a line are served at one time, and the seconds that one has for its first row if another one waits.
PLACES, SILENCE = 16, 10


def row_from(operator):
    """Returns the next row that comes to a connection whose other end sends one row at a time."""
    row, until = b"", time.monotonic() + PATIENCE
    while not row.endswith(b"\n"):
        more = operator.receive_or_end(until - time.monotonic())
        assert more, f"no row comes, only {row}"
        row += more
    return row


def test_sixteen_operators_at_once(serve):
    """Sixteen operators are connected at one time, and each is answered while the others stay."""
    server = serve(usual_rack())
    operators = [server.operator() for _ in range(PLACES)]
    for turn in range(3):
        for number, operator in enumerate(operators):
            assert operator.ask(f"in 5 {number:02x}{turn:02x}") == "done"
    assert operators[0].ask("show 5") == f"show 5 WaitPrm none in {PLACES - 1:02x}02 out 0000 wd off"


def test_answers_stay_in_order(serve, tmp_path):
    """Each of sixteen operators that send at once gets the answers to its own rows in their order; each event is an entry."""
    server, each = serve(usual_rack(), "--audit", tmp_path / "audit"), 200

    def kinds(number):
        """Returns the row, the answer and the event of each row of an operator."""
        kinds = [("in 5 aa55", "done", "in 5 aa55"), (f"busy 5 {60 + number % 2} on", "done", f"busy 5 {60 + number % 2} on"),
                 ("in 9 aa", "refused NoStation", None)]
        return [kinds[(place + number) % 3] for place in range(each)]

    def send_all(number):
        operator = connect(server.ports[1].operator)
        operator.send("".join(f"{row}\n" for row, _, _ in kinds(number)).encode())
        answers = "".join(f"{answer}\n" for _, answer, _ in kinds(number)).encode()
        received = receive(operator, len(answers))
        operator.close()
        return received == answers

    assert at_once(send_all, range(PLACES)) == [True] * PLACES
    rows = (tmp_path / "audit" / "line-1-1.audit").read_text().splitlines()[1:]
    events = [row.split(" | ")[0].split(" ", 1)[1] for row in rows]
    assert sorted(events) == sorted(event for number in range(PLACES) for _, _, event in kinds(number) if event)


def test_two_halts_have_one_cause(serve):
    """Of two operators that halt a line at the same moment, one does it and one is refused; the log has the cause once."""
    for _ in range(20):
        server = serve(rack(), "--log", "--until-input-ends", piped=True)
        pair = [connect(server.ports[1].operator) for _ in range(2)]
        for operator in pair:
            operator.send(b"tick 1\n")
            assert receive(operator, len(b"released\n")) == b"released\n"
        for operator in pair:
            operator.send(b"halt\n")
        answers = [row_from(operator) for operator in pair]
        assert sorted(answers) == [b"refused Halted\n", b"released\n"]
        server.end_input()
        assert re.findall(r"line 1: halted, (.*)", server.wait().errors) == ["by its operator"]


def test_silent_operators_give_their_places_up(serve):
    """If another operator waits, one that has sent no whole row loses its place after ten seconds.

    One that has sent a row keeps its place. If no other one waits, an operator may be silent for longer.
    """
    server = serve(rack(line(1, 5), line(2, 5)))
    first, patient = server.operator(), connect(server.ports[2].operator)
    assert first.ask("tick 1") == "released"
    begun = time.monotonic()
    silent = [connect(server.ports[1].operator) for _ in range(PLACES - 1)]
    silent[0].send(b"a row without its e")
    late = connect(server.ports[1].operator)
    late.send(b"tick 1\n")
    assert receive(late, len(b"released\n")) == b"released\n"
    assert time.monotonic() - begun >= SILENCE
    assert first.ask("tick 1") == "released"
    patient.send(b"tick 1\n")
    assert receive(patient, len(b"released\n")) == b"released\n"
