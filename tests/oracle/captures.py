"""What the capture of an audit text has to have: packets with the octets of its events and outcomes, times by its ticks, and
the sentences of the explainer as comments.
"""
import struct
from dataclasses import fields
from pathlib import Path
from typing import Dict, Iterator, List, Tuple

from oracle.explainer import explain
from oracle.pcapng import INBOUND, OUTBOUND, UNKNOWN, Capture, Packet, WrongCapture, read_capture

MICROSECONDS_PER_UNIT = 10_000


def entries_of(text: str, count: int) -> Iterator[Tuple[int, List[str], List[str]]]:
    """Yields the place, the words of the event and the words of the outcome of the first rows behind the header."""
    for row in text.split('\n')[1:1 + count]:
        placed, _, outcome = row.split(' | ')
        place, *event = placed.split(' ')
        yield int(place), event, outcome.split(' ')


def explained(rack: str, audits: List[str]) -> Tuple[Dict[int, List[str]], str]:
    """Returns the rows of the explanation of each place, and the verdict, by the explainer."""
    _, output, _ = explain([rack, *audits])
    rows = output.split('\n')[:-1]
    blocks: Dict[int, List[str]] = {}
    for row in rows[:rows.index('holds')] if 'holds' in rows else []:
        if row.startswith('       '):
            blocks[max(blocks)].append(row)
        else:
            blocks[int(row.split()[0])] = [row]
    return blocks, rows[-1]


def squeezed(row: str) -> str:
    """Returns the words of a row with one space between."""
    return ' '.join(row.split())


def comment_of(place: int, event: List[str], outcome: List[str], block: List[str]) -> str:
    """Returns the comment of an entry with this explanation."""
    told = []
    for row in block[1:]:
        label = row.split()[0]
        if label == 'result':
            told.append(squeezed(row[19:]))
        elif label == 'slave':
            told.append(squeezed(row))
    if event[0] == 'req':
        answer = {'reply': outcome[-1], 'silence': outcome[-1], 'done': 'Done', 'spread': 'Spread'}[outcome[0]]
        return f'place {place} {answer}: ' + ' '.join(told)
    return f'place {squeezed(block[0])}: ' + ' '.join(told)


def telegrams_of(event: List[str], outcome: List[str]) -> List[Tuple[int, bytes]]:
    """Returns the direction and the octets of each packet of an entry."""
    if event[0] != 'req':
        return [(UNKNOWN, b'')]
    request = (INBOUND, bytes.fromhex(event[2].replace('-', '')))
    if outcome[0] != 'reply':
        return [request]
    return [request, (OUTBOUND, bytes.fromhex(outcome[1]))]


def expected(rack: str, audits: List[str]) -> Tuple[Capture, int]:
    """Returns what the capture of an audit text has to have, and the exit status. It needs Python 3.11, for tomllib."""
    import tomllib
    with open(rack, 'rb') as file:
        lines = [line['number'] for line in tomllib.load(file)['line']]
    text = ''.join(Path(audit).read_text(encoding='utf-8', errors='replace') for audit in audits)
    blocks, verdict = explained(rack, audits)
    header = text.split('\n')[0].split(' ')
    packets, units = [], 0
    for place, event, outcome in entries_of(text, len(blocks)):
        comment = comment_of(place, event, outcome, blocks[place])
        time = MICROSECONDS_PER_UNIT * units + place
        for direction, octets in telegrams_of(event, outcome):
            packets.append(Packet(f'line {header[-1]}', time, direction, octets, comment))
        if event[0] == 'tick':
            units += int(event[1])
    return Capture('', [f'line {number}' for number in lines], packets), 0 if verdict.startswith('legal ') else 1


def differences(found: Capture, wanted: Capture) -> List[str]:
    """Returns a row for each difference."""
    rows = []
    if not ('10 ms' in found.comment and 'tick' in found.comment and 'place' in found.comment):
        rows.append(f'the comment of the section does not say how times are made: {found.comment}')
    if found.interfaces != wanted.interfaces:
        rows.append(f'interfaces: {found.interfaces}, wanted {wanted.interfaces}')
    if len(found.packets) != len(wanted.packets):
        rows.append(f'{len(found.packets)} packets, wanted {len(wanted.packets)}')
    for number, (packet, other) in enumerate(zip(found.packets, wanted.packets), 1):
        for field in fields(Packet):
            has, needs = getattr(packet, field.name), getattr(other, field.name)
            if has != needs:
                rows.append(f'packet {number}: {field.name} {has!r}, wanted {needs!r}')
    return rows


def faults_of(octets: bytes, status: int, rack: str, audits: List[str]) -> List[str]:
    """Returns what is wrong with a capture of an audit text, and with the status of the program that wrote it."""
    try:
        found = read_capture(octets)
    except (WrongCapture, struct.error) as wrong:
        return [f'no capture: {wrong}']
    wanted, ending = expected(rack, audits)
    rows = differences(found, wanted)
    if status != ending:
        rows.append(f'status {status}, wanted {ending}')
    return rows
