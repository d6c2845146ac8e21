"""When the entries of a journal were recorded by the clock, from the files of times that `rackd serve` writes.

The format is in docs/reference/times.md. Few entries have a row in these files. The time of any other entry is interpolated.
"""
from __future__ import annotations

import bisect
import re
from dataclasses import dataclass
from pathlib import Path
from typing import Iterable, List, Optional, Tuple

from .faults import RackError

ROW = re.compile("([1-9][0-9]*) ([1-9][0-9]*)", re.ASCII)
# The largest place and the largest number of milliseconds that a row may have.
LAST_PLACE, LAST_MILLISECOND = 2**32 - 1, 2**64 - 1
DAY = 86_400_000


@dataclass(frozen=True)
class EntryTime:
    """The time at which an entry was recorded, in milliseconds since 1970 (UTC).

    `interpolated` is false if the entry has a row of its own. `str` returns the time of day, as `12:30:01.207`, with a tilde
    before it if it is interpolated.
    """

    milliseconds: int
    interpolated: bool

    def __str__(self) -> str:
        seconds, milliseconds = divmod(self.milliseconds % DAY, 1000)
        minutes, seconds = divmod(seconds, 60)
        hours, minutes = divmod(minutes, 60)
        return f"{'~' if self.interpolated else ''}{hours:02}:{minutes:02}:{seconds:02}.{milliseconds:03}"


class EntryTimes:
    """The places and times of the files of times of a journal."""

    def __init__(self) -> None:
        """Makes times without a row, by which no entry has a time."""
        self._places: List[int] = []
        self._times: List[int] = []

    def push(self, place: int, milliseconds: int) -> None:
        """Adds a row behind the others, unless its place is not above that of the last one.

        A file of a later part may begin with rows that the file before it has too.
        """
        if not self._places or self._places[-1] < place:
            self._places.append(place)
            self._times.append(milliseconds)

    def time_of(self, place: int) -> Optional[EntryTime]:
        """Returns the time of the entry at a place: that of its row, or a time that is interpolated between two rows.

        Returns None before the first row and behind the last one, and between two rows of which the second has the earlier
        time, because the clock was set back. The last entries of a rack that runs have no row for some 100 ms.
        """
        index = bisect.bisect_left(self._places, place)
        if index == len(self._places):
            return None
        after, until = self._places[index], self._times[index]
        if after == place:
            return EntryTime(until, interpolated=False)
        if index == 0:
            return None
        before, since = self._places[index - 1], self._times[index - 1]
        if until < since:
            return None
        return EntryTime(since + (until - since) * (place - before) // (after - before), interpolated=True)


def rows_of_times(line: int, octets: bytes) -> List[Tuple[int, int]]:
    """Returns the places and milliseconds of the file of times of a line. A last row without its LF is left out.

    Raises RackError if the file has another header, or a row that is no row of a file of times.
    """
    header, *rows = octets[:octets.rfind(b"\n") + 1].decode("latin-1").split("\n")[:-1] or [None]
    if header is None:
        return []
    if header != f"rack-times 1 line {line}":
        raise RackError(f"row 1 of the times of line {line}: expected the header 'rack-times 1 line {line}'")
    found: List[Tuple[int, int]] = []
    for number, text in enumerate(rows, 2):
        row = row_of_times(text)
        if row is None:
            raise RackError(f"row {number} of the times of line {line}: expected a place and its milliseconds since 1970")
        if found and row[0] <= found[-1][0]:
            raise RackError(f"row {number} of the times of line {line}: expected a place above {found[-1][0]}")
        found.append(row)
    return found


def row_of_times(text: str) -> Optional[Tuple[int, int]]:
    """Returns the place and the milliseconds of a row, or None if the text is no row: both numbers have no zeros in front."""
    match = ROW.fullmatch(text)
    if match is None:
        return None
    place, milliseconds = int(match[1]), int(match[2])
    return (place, milliseconds) if place <= LAST_PLACE and milliseconds <= LAST_MILLISECOND else None


def times_beside(line: int, paths: Iterable[Path]) -> EntryTimes:
    """Returns the times of the journal of a line that lies in these files: one, or its parts in their order.

    A file that has no file of times beside it is passed over. Raises RackError as `rows_of_times`.
    """
    times = EntryTimes()
    for path in paths:
        try:
            octets = path.with_suffix(".times").read_bytes()
        except FileNotFoundError:
            continue
        for place, milliseconds in rows_of_times(line, octets):
            times.push(place, milliseconds)
    return times
