"""What `rackd explain --json` prints, as objects: each class has the keys of docs/reference/json.md as its fields."""
from __future__ import annotations

import json
from dataclasses import dataclass, field
from types import MappingProxyType
from typing import Any, Dict, List, Mapping, Optional, Tuple

from .faults import RackError

NO_FIELDS: Mapping[str, Any] = MappingProxyType({})
# the version of the lines that are read
VERSION = 2


@dataclass(frozen=True)
class Decoded:
    """The data of a request in words, by what they are: `parameters`, `configured`, `command`, `outputs` or `data`."""

    name: str
    words: str


@dataclass(frozen=True)
class Event:
    """What a master sent (`kind` is `request`), or what the operator did: `in`, `diag`, `busy`, `tick` or `halt`.

    What an event has not is None; so are the fields of a telegram that cannot be read. `point` is also None for the
    default point.
    """

    kind: str
    words: str
    frame: Optional[str] = None
    da: Optional[int] = None
    sa: Optional[int] = None
    function: Optional[int] = None
    fcb: Optional[bool] = None
    fcv: Optional[bool] = None
    dsap: Optional[int] = None
    ssap: Optional[int] = None
    service: Optional[str] = None
    data: Optional[bytes] = None
    octets: Optional[bytes] = None
    decoded: Optional[Decoded] = None
    ext_diag: Optional[bool] = None
    stat_diag: Optional[bool] = None
    overflow: Optional[bool] = None
    point: Optional[int] = None
    on: Optional[bool] = None
    units: Optional[int] = None


@dataclass(frozen=True)
class Answer:
    """The answer to an event. `octets` are those of the reply; None if nobody replied. `words` are the reply in words."""

    outcome: str
    rule: Optional[str]
    octets: Optional[bytes]
    words: Optional[str]


@dataclass(frozen=True)
class Why:
    """The facts of an answer: their kind, as `NotHolder`, and the fields of that kind, as `why["holder"]`."""

    kind: str
    fields: Mapping[str, Any] = field(default_factory=lambda: NO_FIELDS)

    def __getitem__(self, name: str) -> Any:
        return self.fields[name]


@dataclass(frozen=True)
class Part:
    """What a Global_Control to all does at one slave."""

    slave: int
    outcome: str
    rule: str
    reason: Optional[Why]
    sentence: str


@dataclass(frozen=True)
class Condition:
    """The state of a slave, and the master that holds it."""

    state: str
    holder: Optional[int]


@dataclass(frozen=True)
class Change:
    """A slave whose state or holder an entry changed."""

    slave: int
    before: Condition
    after: Condition


@dataclass(frozen=True)
class Release:
    """A slave that an entry released. `watchdog` is the time of the watchdog that ran out, in units of 10 ms."""

    slave: int
    master: int
    ending: str
    watchdog: Optional[int]


@dataclass(frozen=True)
class Entry:
    """An entry of a journal.

    `time` is the sum of the ticks before it in units of 10 ms; `sender` is `master` or `operator`; `to` is `slave`,
    `station`, `all_slaves`, `line` or `nobody`.
    """

    place: int
    time: Optional[int]
    sender: str
    master: Optional[int]
    to: str
    address: Optional[int]
    event: Event
    answer: Answer
    refused: bool
    fault: bool
    surprising: bool
    reason: Optional[Why]
    sentence: str
    slaves: Tuple[Part, ...]
    changes: Tuple[Change, ...]
    releases: Tuple[Release, ...]

    @property
    def rule(self) -> Optional[str]:
        """The rule of docs/reference/policy.md that decided, as `NotHolder`."""
        return self.answer.rule

    @property
    def octets(self) -> Optional[bytes]:
        """The octets that a master sent, or that the operator set; None if the event has none."""
        return self.event.octets


@dataclass(frozen=True)
class Hold:
    """A slave that a master held, from the entry `since` on to the entry `to`; None and `lasts`: to the end."""

    slave: int
    master: int
    since: int
    to: Optional[int]
    ending: str


@dataclass(frozen=True)
class WayCount:
    """How many requests of a master were answered in a way; None: of all senders that are no masters of the line."""

    master: Optional[int]
    way: str
    count: int
    fault: bool


@dataclass(frozen=True)
class StationCount:
    """What was counted of a slave as a receiver, or of a master as a sender; `held` is in units of 10 ms."""

    station: str
    address: int
    exchanges: int
    diagnoses: int
    retries: int
    refused: Mapping[str, int]
    released: Mapping[str, int]
    held: int


@dataclass(frozen=True)
class Poll:
    """How often an address was asked for its FDL status, and the station that has it."""

    address: int
    station: Optional[str]
    count: int


@dataclass(frozen=True)
class Verdict:
    """Whether the text is the journal of the line: `legal` with the number of its entries, or the first wrong row."""

    verdict: str
    entries: Optional[int] = None
    row: Optional[int] = None


@dataclass(frozen=True)
class Explained:
    """All that is printed of a text."""

    entries: Tuple[Entry, ...]
    holds: Tuple[Hold, ...]
    counts: Tuple[WayCount, ...]
    stations: Tuple[StationCount, ...]
    polls: Tuple[Poll, ...]
    verdict: Verdict


Keys = Dict[str, Any]


def octets_of(text: Optional[str]) -> Optional[bytes]:
    """Returns the octets of a string of hex digits; None of null."""
    return None if text is None else bytes.fromhex(text)


def why_of(keys: Optional[Keys]) -> Optional[Why]:
    """Returns the reason of these keys; None of null."""
    if keys is None:
        return None
    fields = {key: value for key, value in keys.items() if key != "kind"}
    return Why(keys["kind"], MappingProxyType(fields))


def event_of(keys: Keys) -> Event:
    """Returns the event of these keys."""
    decoded = keys.get("decoded")
    fields = {key: value for key, value in keys.items() if key not in ("data", "octets", "decoded")}
    return Event(**fields, data=octets_of(keys.get("data")), octets=octets_of(keys.get("octets")),
                 decoded=None if decoded is None else Decoded(decoded["as"], decoded["words"]))


def change_of(keys: Keys) -> Change:
    """Returns the change of these keys."""
    return Change(keys["slave"], Condition(**keys["before"]), Condition(**keys["after"]))


def entry_of(keys: Keys) -> Entry:
    """Returns the entry of a line."""
    answer = keys["answer"]
    return Entry(
        place=keys["place"], time=keys["time"], sender=keys["from"], master=keys["master"], to=keys["to"],
        address=keys["address"], event=event_of(keys["event"]),
        answer=Answer(answer["outcome"], answer["rule"], octets_of(answer["octets"]), answer["words"]),
        refused=keys["refused"], fault=keys["fault"], surprising=keys["surprising"], reason=why_of(keys["reason"]),
        sentence=keys["sentence"],
        slaves=tuple(Part(**{**part, "reason": why_of(part["reason"])}) for part in keys["slaves"]),
        changes=tuple(change_of(change) for change in keys["changes"]),
        releases=tuple(Release(**release) for release in keys["releases"]))


def explained_of(output: str) -> Explained:
    """Returns what the lines of `rackd explain --json` say. Raises RackError for lines of another version."""
    lines: Dict[str, List[Keys]] = {}
    for row in output.splitlines():
        keys = json.loads(row)
        if keys.pop("version", None) != VERSION:
            raise RackError(f"these lines of rackd explain are not of version {VERSION}: {row[:60]}")
        lines.setdefault(keys.pop("kind"), []).append(keys)
    return Explained(
        entries=tuple(entry_of(keys) for keys in lines.get("entry", ())),
        holds=tuple(Hold(**keys) for keys in lines.get("hold", ())),
        counts=tuple(WayCount(**keys) for keys in lines.get("count", ())),
        stations=tuple(StationCount(**keys) for keys in lines.get("station", ())),
        polls=tuple(Poll(**keys) for keys in lines.get("poll", ())),
        verdict=Verdict(**lines["verdict"][-1]))
