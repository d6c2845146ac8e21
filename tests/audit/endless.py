"""What tests of endless audit texts share: a rack of one line with 16 masters, their telegrams, and the parts of a text."""
import itertools
import re
import signal
from pathlib import Path
from typing import List, NamedTuple

from audit.dialogue import line_of
from rackd import frames
from support.audit_texts import part_name, whole_rows
from support.clients import exchange, open_master, wait_for
from support.loads import Load, finish, start
from support.racks import rack
from support.telegrams import FIRST, slave_diag, token

MEGABYTE = 1_000_000
MASTERS, SLAVES = range(100, 116), (5, 6, 7)
# The rows of the head of a part of this line.
HEAD_ROWS = 2 + len(SLAVES) * (6 + len(MASTERS))
# The bytes that a part may have behind its size: a row of each master, whose telegrams are long.
BEHIND = len(MASTERS) * 700
# The words of a server whose parts have one megabyte.
SMALL_PARTS = "--endless", "--part", "1"


def rack_of_sixteen(capacity=1000):
    """Returns a rack of line 1 with masters 100 to 115 and slaves 5, 6 and 7."""
    return rack(line_of(1, masters=list(MASTERS), capacity=capacity), workers=16)


def tokens(master, count=400):
    """Returns telegrams that get no reply and have short rows."""
    return [token(master)] * count


def long_telegrams(master, count=20):
    """Returns telegrams that get no reply and have rows of some 540 bytes: there is no station 50."""
    return [frames.sd2(50, master, FIRST, bytes(range(240)))] * count


def part_paths(folder, number=1):
    """Returns the paths of the parts of a text of line 1, in their order."""
    found = [path for path in folder.iterdir() if re.fullmatch(rf"line-1-{number}\.[0-9]{{6,}}\.audit", path.name)]
    return sorted(found, key=part_number)


def part_number(path):
    return int(path.name.split(".")[1])


def part_numbers(folder, number=1):
    """Returns the numbers of the parts of a text of line 1, ascending."""
    return [part_number(path) for path in part_paths(folder, number)]


def wait_for_part(folder, part, number=1):
    """Waits until a part of a text of line 1, or a later one, has begun: this one may be deleted already."""
    wait_for(lambda: part_numbers(folder, number)[-1:] >= [part], every=0.002)


def split_head(part):
    """Returns the rows of the head of a part, and those of its entries. The header is the head of the first part."""
    rows = part.splitlines(keepends=True)
    count = sum(not row[:1].isdigit() for row in rows)
    assert not any(row[:1].isdigit() for row in rows[:count]), "a row that is none of an entry is behind one"
    return rows[:count], rows[count:]


def last_place(part):
    """Returns the place of the last entry of a part, or that of its head."""
    head, entries = split_head(part)
    if entries:
        return int(entries[-1].split(b" ")[0])
    found = re.match(rb"rack-audit 3 line 1 from (\d+)\n$", head[0])
    return int(found[1]) if found else 0


def joined(parts):
    """Returns the text in these parts, of which the first is the first of the text, as if it had one part."""
    head, entries = split_head(parts[0])
    return b"".join([*head, *entries, *(row for part in parts[1:] for row in split_head(part)[1])])


def whole_text(folder):
    """Returns the parts of the first text of line 1, of which none is missing, and the text as if it had one part."""
    paths = part_paths(folder)
    assert [path.name for path in paths] == [part_name(part) for part in range(1, len(paths) + 1)]
    parts = [path.read_bytes() for path in paths]
    return parts, joined(parts)


def assert_cut_at_rows(parts, megabytes=1):
    """Asserts that each part but the last ends with a row, and about where it has its megabytes."""
    for place, part in enumerate(parts[:-1], 1):
        assert part.endswith(b"\n"), f"part {place}"
        assert 0 <= len(part) - megabytes * MEGABYTE < BEHIND, f"the size of part {place}"
    assert parts[-1], "the last part is empty"


def rows_of_master(text, master):
    """Returns how many rows of entries a text has of a master."""
    return len(re.findall(rb"(?m)^[0-9]+ req %d " % master, text))


def without_cut_end(paths):
    """Takes what a kill may leave from the parts of a text: a last row that is not whole, or a last part whose head isn't.

    Returns the paths that are left.
    """
    last = whole_rows(paths[-1].read_bytes())
    if len(paths) > 1 and len(split_head(last)[0]) < HEAD_ROWS:
        return paths[:-1]
    paths[-1].write_bytes(last)
    return paths


class ExchangeAndTokens(Load):
    """A master that asks for the diagnosis of a slave and sends 50 tokens, again and again, until a path is there."""

    def __init__(self, server, master, slave, path):
        super().__init__()
        self._master, self._slave, self._path = master, slave, path
        self._session = open_master(server.ports[1].listen, master)

    def work(self):
        for code in itertools.cycle((0x7D, 0x5D)):
            # once this is answered, the rows of all before it are written, with the head of a part that they fill
            exchange(self._session, slave_diag(self._master, self._slave, code))
            if self._path.exists():
                return
            self._session.send(b"".join(tokens(self._master, 50)))


class Served(NamedTuple):
    """An endless line that was served: its rack file, the paths of the parts of its text, and these parts."""

    rack: Path
    paths: List[Path]
    parts: List[bytes]


def serve_parts(serve, folder, count, *words, stay=None):
    """Serves an endless line with these words until its text has this number of parts, used by four masters.

    If `stay` is given, it waits until only this number of the newest parts are left.
    """
    server = serve(rack_of_sixteen(), "--audit", folder, *SMALL_PARTS, *words)
    loads = [ExchangeAndTokens(server, 100 + place, SLAVES[place % 3], folder / part_name(count)) for place in range(4)]
    start(loads)
    finish(loads)
    if stay is not None:
        wait_for_newest(folder, stay)
    server.send_signal(signal.SIGTERM)
    server.wait()
    paths = part_paths(folder)
    return Served(server.rack, paths, [path.read_bytes() for path in paths])


def wait_for_newest(folder, count, others=0):
    """Waits until only this number of the newest parts are left, and others that can't be deleted."""
    wait_for(lambda: len(part_numbers(folder)) == count + others)
    newest = part_numbers(folder)[-count:]
    assert newest == list(range(newest[0], newest[0] + count))


def resident(server):
    """Returns the resident memory of a server in KiB."""
    with open(f"/proc/{server.pid}/status", encoding="ascii") as file:
        return int(re.search(r"VmRSS:\s+(\d+) kB", file.read())[1])
