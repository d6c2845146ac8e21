"""What two masters and an operator of a line say in turn, with the rows that the audit text of the line has then."""
import itertools
import time
from typing import NamedTuple, Tuple, Union

from support.audit_texts import header
from support.clients import answer_to, open_master, receive_frame
from support.loads import lock
from support.racks import line, slave
from support.telegrams import ACCEPTED, chk_cfg, data_exchange, fresh_diagnosis, global_control, slave_diag, token

# Slave 6 mirrors its outputs, and slave 7 counts.
SLAVES = slave(5, device="still"), slave(6, device="mirror"), slave(7, device="counter")
# Seconds between two pieces of a step.
BETWEEN = 0.005


def line_of(number, **keys):
    """Returns the part of a rack file that has a line with slaves 5, 6 and 7."""
    return line(number, *SLAVES, **keys)


class Step(NamedTuple):
    """What a master (1, 2) or the operator (0) says, in one piece or in two; the answer, and what the entries have."""

    who: int
    says: tuple
    answer: Union[bytes, str]
    rows: Tuple[str, ...]


def asks(master, octets, answer, facts, rule):
    """Returns the step of a request that gets a reply."""
    return Step(master, (octets,), answer, (f"req {master} {octets.hex()} | {facts} | reply {answer.hex()} {rule}",))


def orders(text, answer, *rows):
    """Returns a step of the operator."""
    return Step(0, (text,), answer, rows)


def silent(master, octets, row):
    """Returns a step that gets no reply."""
    return Step(master, (octets,), b"", (f"req {master} {octets.hex()} | none | {row}",))


def in_two_pieces(first, last):
    """Returns two steps of one master as one, of which the first gets no reply."""
    return Step(first.who, first.says + last.says, last.answer, first.rows + last.rows)


def in_one_piece(first, last):
    """Returns the same, sent at once."""
    both = in_two_pieces(first, last)
    return both._replace(says=(b"".join(both.says),))


HELD_BY_2 = bytes.fromhex("680b0b688185083e3c020c000280a1b916")
REFUSED_BY_5 = bytes.fromhex("100205030a16")
INPUTS_OF_5 = bytes.fromhex("68050568010508aa550d16")
# Octets, answers and rows are those of examples/ and of tests/serve.
DIALOGUE = (
    asks(1, slave_diag(1, 5), fresh_diagnosis(1, 5), "WaitPrm none", "Done"),
    orders("in 5 aa55", "done", "in 5 aa55 | WaitPrm none | done"),
    asks(1, lock(1, 5, 0x5D), ACCEPTED, "WaitPrm none", "Done"),
    asks(2, lock(2, 5, 0x6D), REFUSED_BY_5, "WaitCfg 1", "NotHolder"),
    asks(1, chk_cfg(1, 5, 0x7D), ACCEPTED, "WaitCfg 1", "Done"),
    asks(1, data_exchange(1, 5, 0x5D, b"\x12\x34"), INPUTS_OF_5, "DataExch 1", "Done"),
    silent(1, token(1), "silence Token"),
    orders("tick 9", "released", "tick 9 | none | released"),
    orders("tick 1", "released 5", "tick 1 | none | released 5"),
    in_two_pieces(silent(2, token(2), "silence Token"), asks(2, lock(2, 5, 0x5D), ACCEPTED, "WaitPrm none", "Done")),
    orders("owned 2", "owned 5"),
    silent(2, global_control(2), "spread 5:NotActive"),
    orders("step", "stepped 2", "in 6 0000 | WaitPrm none | done", "in 7 0001 | WaitPrm none | done"),
    orders("in 9 aa", "refused NoStation"),
    in_one_piece(silent(1, token(1), "silence Token"), asks(1, slave_diag(1, 5, 0x7D), HELD_BY_2, "WaitCfg 2", "Done")),
)
LAST = silent(2, token(2), "silence Token")
# The steps with an answer and the last one: a step without an answer may come behind the next one, of another connection.
ANSWERED = [step for step in DIALOGUE if step.answer] + [LAST]


def texts_of(number, steps):
    """Yields the audit text of a line behind each of these steps."""
    text, place = header(number), itertools.count(1)
    for step in steps:
        text += "".join(f"{next(place)} {row}\n" for row in step.rows).encode()
        yield text


class Speakers:
    """Masters 1 and 2 and the operator of a line."""

    def __init__(self, server, number=1):
        masters = [open_master(server.ports[number].listen, address) for address in (1, 2)]
        self._operator, self._masters = server.operator(number), masters

    def take(self, step):
        """Says what a step says, and asserts that it is answered as it has to be."""
        if step.who == 0:
            assert answer_to(self._operator, step.says[0]) == step.answer
            return
        session = self._masters[step.who - 1]
        for piece in step.says:
            session.send(piece)
            if len(step.says) > 1:
                time.sleep(BETWEEN)
        if step.answer:
            assert receive_frame(session) == step.answer, step.says

    def close(self):
        for speaker in (self._operator, *self._masters):
            speaker.close()
