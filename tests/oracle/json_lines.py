"""Reads lines of JSON that `rackd explain --json` wrote, with Python's json. It is independent of the code of the product.

A text has a line for each entry, lines for the holds and for what was counted, and the verdict as its last line; an empty text
has none. Each line is checked against `share/explain.schema.json`. What no schema says is checked here: the order of the keys,
that no line has a space too much, the order of the lines, and which values of an entry fit each other.
"""
import json
from pathlib import Path
from typing import Any, Dict, List, Optional, Tuple

from oracle.json_schema import is_valid

SCHEMA = json.loads((Path(__file__).resolve().parents[2] / 'share' / 'explain.schema.json').read_text('ascii'))
# The definition of the lines of each kind, of which that with all keys of the line has their order.
LINES = ('entry', 'hold', 'way_count', 'station_count', 'poll', 'legal', 'not_legal')
ORDER = ('entry', 'hold', 'count', 'station', 'poll', 'verdict')


def keys_of_line(value: Dict[str, Any]) -> List[List[str]]:
    """Returns the keys of each kind of line, in their order."""
    return [list(SCHEMA['$defs'][name]['properties']) for name in LINES]


def agrees(entry: Dict[str, Any]) -> bool:
    """Returns whether the values of an entry fit each other."""
    is_request, answer, event = entry['from'] == 'master', entry['answer'], entry['event']
    return (is_request == (entry['master'] is not None) == (event['kind'] == 'request')
            and (entry['to'] in ('slave', 'station')) == (entry['address'] is not None)
            and (answer['rule'] is None) == (not is_request or answer['outcome'] == 'spread')
            and (entry['reason'] is None) == (answer['outcome'] == 'spread')
            and (answer['octets'] is None) == (answer['words'] is None)
            and (not entry['slaves'] or entry['to'] == 'all_slaves')
            and {release['slave'] for release in entry['releases']} <= {change['slave'] for change in entry['changes']})


def parts_of(pairs: List[Tuple[str, Any]]) -> Dict[str, Any]:
    """Returns the object of these keys, or raises ValueError if a key comes twice."""
    if len(dict(pairs)) != len(pairs):
        raise ValueError('a key comes twice')
    return dict(pairs)


def read_line(line: str) -> Optional[Dict[str, Any]]:
    """Returns the object of a line, without its LF; None if it is no right line."""
    try:
        value = json.loads(line, object_pairs_hook=parts_of)
    except ValueError:
        return None
    if json.dumps(value, separators=(',', ':')) != line or not is_valid(value, SCHEMA):
        return None
    if list(value) not in keys_of_line(value) or value['kind'] == 'entry' and not agrees(value):
        return None
    return value


def is_next(kind: str, before: Optional[str], is_last: bool) -> bool:
    """Returns whether a line of this kind may follow one of the kind before."""
    if is_last != (kind == 'verdict'):
        return False
    return before is None or ORDER.index(before) <= ORDER.index(kind)


def first_wrong(text: str) -> Optional[str]:
    """Returns the first wrong line of a text with its number, or what else is wrong; None if all lines are right."""
    lines, before = text.split('\n'), None
    if lines.pop() != '':
        return 'the last line has no LF'
    for number, line in enumerate(lines, 1):
        value = read_line(line)
        if value is None or not is_next(value['kind'], before, number == len(lines)):
            return f'line {number}: {line}'
        before = value['kind']
    return None
