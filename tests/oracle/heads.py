"""A model of the heads of parts, and what comes behind each head. It is independent of the code of the product.

An audit text is taken as that of an endless line. explainer.py simulates the line, and this module writes the head of it
behind each entry, as docs/reference/audit-texts.md describes heads, and says what has to be said of that head and what follows it.
"""
import os
import pickle
from dataclasses import dataclass
from typing import Any, Iterable, List, Optional, Tuple

from oracle.explainer import (CHK_CFG, DATA_EXCH, DATA_EXCHANGE, ENDLESS_CAPACITY, GET_CFG, GLOBAL_CONTROL, MS_PER_UNIT,
                              NO_OCTETS, RD_INP, RD_OUTP, SET_PRM, SLAVE_DIAG, UNKNOWN_PLACE, BadRow, Hold, Line, Options,
                              Parameters, RackFault, Slave, explain_rows, open_line, output_in_rows, read_file, read_rack,
                              rows_of, take_row)

BUSY_LETTERS = ((DATA_EXCHANGE, 'x'), (RD_INP, 'i'), (RD_OUTP, 'o'), (GLOBAL_CONTROL, 'g'), (GET_CFG, 'c'), (SLAVE_DIAG, 'd'),
                (SET_PRM, 'p'), (CHK_CFG, 'k'))
MODE_LETTERS, REQUEST_LETTERS, DIAGNOSIS_LETTERS = 'sfc', 'sf', 'esoupcn'


# ---- Heads


def word(value: Optional[int], name: str) -> str:
    return name if value is None else str(value)


def octets(value: bytes) -> str:
    return value.hex() or NO_OCTETS


def flags(letters: Iterable[Tuple[Any, str]]) -> str:
    return ''.join(letter if is_set else '-' for is_set, letter in letters)


def parameter_words(parameters: Optional[Parameters]) -> str:
    if parameters is None:
        return 'none'
    watchdog = word(parameters.watchdog if parameters.watchdog_on else None, 'off')
    requests = flags(zip((parameters.sync, parameters.freeze), REQUEST_LETTERS))
    return f'{watchdog} {requests} {parameters.min_tsdr} {parameters.groups} {octets(parameters.user)}'


def slave_rows(slave: Slave, masters: List[int]) -> List[str]:
    """Returns the rows of a slave. It has a configuration exactly in data exchange: then it is the one in force."""
    address, configuration = slave.address, slave.shape if slave.state == DATA_EXCH else None
    busy = flags((point in slave.busy, letter) for point, letter in BUSY_LETTERS)
    modes = flags(zip((slave.sync_mode, slave.freeze_mode, slave.cleared), MODE_LETTERS))
    diagnosis = flags(zip((slave.ext, slave.stat, slave.overflow, slave.unread, slave.prm_fault, slave.cfg_fault,
                           slave.not_supported), DIAGNOSIS_LETTERS))
    remembered = [(master, slave.memory.get(master)) for master in masters]
    return [f'slave {address} {slave.state} {word(slave.holder, "none")} {slave.since} {word(slave.left, "off")} {busy}',
            f'set {address} {slave.min_tsdr} {word(configuration, "none")} {slave.shape} {modes}',
            f'prm {address} {parameter_words(slave.parameters)}',
            f'in {address} {octets(slave.inputs)} {octets(slave.copy)}',
            f'out {address} {octets(slave.outputs)} {octets(slave.latest)}',
            f'diag {address} {diagnosis} {octets(slave.extended)}'
            ] + [f'last {address} {master} ' + ('none' if noted is None else f'{noted.fcb:d} {octets(noted.reply)}')
                 for master, noted in remembered]


def head_text(line: Line) -> str:
    """Returns the head of a part that begins here."""
    time = word(None if line.time is None else line.time // MS_PER_UNIT, 'none')
    rows = [f'rack-audit 3 line {line.spec.number} from {line.count}', f'line {"halted" if line.halted else "running"} {time}']
    for _, slave in sorted(line.slaves.items()):
        rows += slave_rows(slave, line.spec.masters)
    return ''.join(f'{row}\n' for row in rows)


def copy_of(line: Line) -> Line:
    """Returns a copy of a line that shares nothing with it."""
    return pickle.loads(pickle.dumps(line, pickle.HIGHEST_PROTOCOL))


def line_behind_head(line: Line) -> Line:
    """Returns the line as it is known from its head: of the entries before it only what the head says."""
    known = copy_of(line)
    known.holds = []
    for slave in known.slaves.values():
        slave.released_by = slave.released_at = None
        for noted in slave.memory.values():
            noted.place = UNKNOWN_PLACE
        if slave.holder is not None:
            known.holds.append(Hold(slave.address, slave.holder, slave.since, known.passed))
    return known


# ---- Texts


def text_of(rows: List[Tuple[str, bool]]) -> str:
    return ''.join(row + ('\n' if is_whole else '') for row, is_whole in rows)


def states_behind(line: Line, rows: List[Tuple[str, bool]]) -> List[Line]:
    """Returns the line before the first row, and behind each right one."""
    states = [copy_of(line)]
    for row, is_whole in rows:
        try:
            if take_row(line, row, is_whole) is None:
                return states
        except BadRow:
            return states
        states.append(copy_of(line))
    return states


@dataclass
class Case:
    """A text for the program, and what explainer.py says of it: the verdict, and the explanation unless it is not compared."""
    name: str
    rack: str
    text: str
    verdict: str
    explained: Optional[str]


def cases_of(rack: str, audit: str) -> List[Case]:
    """Returns a case for each cut of an audit text, and one for the text with all heads; none if it has no header of a line."""
    try:
        lines, rows = read_rack(read_file(rack)), rows_of(read_file(audit))
    except (RackFault, UnicodeDecodeError):
        return []
    opened = open_line(rows[0][0], lines) if rows else None
    if opened is None or not rows[0][1]:
        return []
    name, entries = f'{os.path.basename(os.path.dirname(audit))}/{os.path.basename(audit)}', rows[1:]
    states = states_behind(Line(opened.spec, ENDLESS_CAPACITY), entries)
    cases, parts = [], f'rack-audit 3 line {opened.spec.number}\n'
    for count, state in enumerate(states):
        head, rest = head_text(state), entries[count:]
        explained = explain_rows(line_behind_head(state), rest)
        cases.append(Case(f'{name} behind entry {count}', rack, head + text_of(rest), explained.verdict,
                          output_in_rows(explained, Options())))
        parts += head + text_of(rest[:1])
    return cases + [Case(f'{name} with a head behind each entry', rack, parts, cases[-1].verdict, None)]
