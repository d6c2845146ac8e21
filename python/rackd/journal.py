"""The journal of a line: what came to it, what it answered, and why, as `rackd explain` and `rackd judge` report it."""
from __future__ import annotations

import contextlib
import json
import os
import subprocess
from dataclasses import dataclass
from typing import BinaryIO, ClassVar, Iterator, List, Optional, Sequence, Tuple, Union

from .explained import Entry, Explained, explained_of
from .faults import RackError, RackFault
from .program import rows_of, run
from .reasons import Reason
from .times import EntryTime, EntryTimes


@dataclass(frozen=True)
class Finding:
    """What a master did that the standard rules out, with the keys of `rackd judge --json` (docs/reference/judge.md).

    `severity` is `error` or `warning`. `slave` is 127 for all slaves, and None for octets that are no request. `before`
    has the octets of the request before, for the rule `fcb-repeated` only.
    """

    place: int
    master: int
    slave: Optional[int]
    rule: str
    severity: str
    standard: str
    text: str
    octets: bytes
    before: Optional[bytes]


@dataclass(frozen=True)
class Untested:
    """That too little was done for a verdict on a master, with the keys of `rackd judge --json` (docs/reference/judge.md).

    Either `master` sent only so many `requests`, or only so many `exchanges` of all judged masters were answered. The other
    keys are None. At least `at_least` were required. `rule` is `untested`.
    """

    master: Optional[int]
    requests: Optional[int]
    exchanges: Optional[int]
    at_least: int
    rule: ClassVar[str] = "untested"


def untested_of(output: bytes) -> List[Untested]:
    """Returns what is untested by the output of `rackd judge --json`: the masters, and then the exchanges."""
    rows = [json.loads(row).get("untested") for row in output.splitlines()]
    return [Untested(master=keys.get("master"), requests=keys.get("requests"), exchanges=keys.get("exchanges"),
                     at_least=keys["at_least"]) for keys in rows if keys is not None]


def findings_of(output: bytes) -> Tuple[List[Finding], str]:
    """Returns the findings of the output of `rackd judge --json`, and its verdict on the text."""
    findings, verdict = [], ""
    for row in output.splitlines():
        keys = json.loads(row)
        verdict = keys.get("verdict", verdict)
        if "place" in keys:
            before = keys.get("before")
            findings.append(Finding(
                place=keys["place"], master=keys["master"], slave=keys["slave"], rule=keys["rule"],
                severity=keys["severity"], standard=keys["standard"], text=keys["text"],
                octets=bytes.fromhex(keys["octets"]), before=None if before is None else bytes.fromhex(before)))
    return findings, verdict


class Journal:
    """The entries that a line had at one moment, as a sequence. `verdict` is `legal` for each journal of a rack.

    `explained` also has the holds and what was counted.
    """

    def __init__(self, program: str, rack: bytes, text: bytes, times: Optional[EntryTimes] = None) -> None:
        """Reads the audit text of a line of the rack file. A last row that is not whole is left out.

        `times` are those of its entries by the clock, if there are any.
        """
        self._program, self._rack = program, rack
        self._times = times or EntryTimes()
        self._text = text[:text.rfind(b"\n") + 1]
        self.explained: Explained = explained_of(self._explained("--json"))
        self.entries: Tuple[Entry, ...] = self.explained.entries
        self.verdict: str = self.explained.verdict.verdict

    def __iter__(self) -> Iterator[Entry]:
        return iter(self.entries)

    def __len__(self) -> int:
        return len(self.entries)

    def __getitem__(self, index: int) -> Entry:
        return self.entries[index]

    def refused(self) -> List[Entry]:
        """Returns the requests that were refused, by the definition of docs/reference/log.md."""
        return [entry for entry in self.entries if entry.refused]

    def explain(self, *, faults: bool = False, first: Optional[int] = None, last: Optional[int] = None,
                slave: Optional[int] = None, master: Optional[int] = None, refused: bool = False,
                summary: bool = False) -> str:
        """Returns the journal in words. The options are those of `rackd explain`: `first` is --from, `last` is --to."""
        words = [f"--{name}" for name, on in (("faults", faults), ("refused", refused), ("summary", summary)) if on]
        for name, number in (("from", first), ("to", last), ("slave", slave), ("master", master)):
            if number is not None:
                words += [f"--{name}", str(number)]
        return self._explained(*words)

    def why(self, place: int) -> Reason:
        """Returns why the entry at a place has its outcome. Raises RackError if there is no such entry."""
        for entry in self.entries:
            if entry.place == place:
                return Reason(entry.sentence)
        raise RackError(f"the journal has no entry {place}")

    def time_of(self, place: int) -> Optional[EntryTime]:
        """Returns when the entry at a place was recorded by the clock, or None if that is not known (`EntryTimes.time_of`)."""
        return self._times.time_of(place)

    def judge(self, *, master: Optional[int] = None, rules: Sequence[str] = (),
              retries: Optional[int] = None, requests_at_least: Optional[int] = None,
              exchanges_at_least: Optional[int] = None, allow_untested: bool = False) -> List[Union[Finding, Untested]]:
        """Returns what the masters did that the standard rules out, in the order of the places, and what is untested.

        With `master` only this one is judged, with `rules` only by these; `retries` is how many retries a request may
        have, 3 by default. An empty list means that something was tested: each master has sent `requests_at_least`
        requests, and `exchanges_at_least` Data_Exchanges of all of them were answered, 1 by default. If not, the list ends
        with an Untested for each master, and for the exchanges; `allow_untested` leaves these out.

        Raises RackFault if there is no such rule, if the journal is not legal, or if the rack has deleted its first part.
        """
        words = ["--json"]
        if rules:
            words += ["--rules", ",".join(rules)]
        for name, number in (("master", master), ("retries", retries), ("requests-at-least", requests_at_least),
                             ("exchanges-at-least", exchanges_at_least)):
            if number is not None:
                words += [f"--{name}", str(number)]
        done = self._read_by("judge", *words)
        findings, verdict = findings_of(done.stdout)
        if verdict != "legal":
            raise RackFault(f"rackd judge cannot read this journal: {verdict or 'no verdict'}", done.returncode,
                            rows_of(done.stderr))
        return [*findings, *([] if allow_untested else untested_of(done.stdout))]

    def _explained(self, *words: str) -> str:
        return self._read_by("explain", *words).stdout.decode()

    def _read_by(self, command: str, *words: str) -> "subprocess.CompletedProcess[bytes]":
        """Runs a command of the program on this journal to its end."""
        with contextlib.ExitStack() as files:
            rack, text = (files.enter_context(file_of(octets)) for octets in (self._rack, self._text))
            descriptors = (rack.fileno(), text.fileno())
            paths = [f"/dev/fd/{descriptor}" for descriptor in descriptors]
            return run(self._program, [command, *paths, *words], descriptors)


def file_of(octets: bytes) -> BinaryIO:
    """Returns a file with these octets that is in no folder, so that nothing is left of it however this process ends."""
    file = os.fdopen(os.memfd_create("rackd"), "w+b")
    file.write(octets)
    file.flush()
    return file
