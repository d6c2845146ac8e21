"""Tables of rows `COMMAND => ANSWER` about one line: what comes to it, in order, and what the policy gives.

A command is an event as an audit text has it, a row of an operator's port that is no event, `ask`, or `head`:

    req 1 100501494f16 => WaitPrm none | reply 100105000616 Status
    ask 1 5 4d 61 8802050b80a101 => WaitPrm none | ack
    in 9 aa => - | none | refused NoStation
    show 5 => show 5 WaitCfg 1 in 0000 out 0000 wd 10
    head => slave 5 WaitCfg 1 1 10 --------; prm 5 10 -- 11 1 -

- `ask M A FC POINT HEX` is the request of master M to a point of slave A, with SSAP 62; `default` is the request without
  access points, and `-` is no data.
- The answer to an event is `FACTS | OUTCOME`, as an audit text has it; with `- | ` before, it takes no place. With
  ` | released A..` behind, it meets the last place, and the halt is recorded instead.
- In place of a reply there may be `ack`, a short acknowledgement; `low HEX` or `high HEX`, data of low or high priority; and
  `RS RULE`, `UE RULE` or `RR RULE`, a refusal.
- `head` is the line behind the events so far. The answer has the rows of its head that differ from those of a new line.
"""
from typing import NamedTuple

from rackd import frames
from support.racks import line, rack, slave

SSAP = 62
REFUSALS = {"UE": 0x01, "RR": 0x02, "RS": 0x03}
PRIORITIES = {"low": 0x08, "high": 0x0A}


class LineOfRows(NamedTuple):
    """A line 1 of slaves that are alike: two octets of outputs and two of inputs, and Sync and Freeze, unless it is said.

    A key of None is left out.
    """

    slaves: tuple = (5,)
    masters: tuple = (1, 2)
    capacity: int = 1000
    cfg: object = "2111"
    inputs: str = "0000"
    outputs: str = "0000"
    keys: tuple = ()

    @property
    def rack(self):
        """The rack file."""
        keys = {"cfg": self.cfg, "sync": True, "freeze": True, **dict(self.keys)}
        parts = [slave(address, **{key: value for key, value in keys.items() if value is not None}) for address in self.slaves]
        return rack(line(1, *parts, masters=list(self.masters), capacity=self.capacity))

    def head(self, rows, after, time):
        """Returns the rows of the head behind an entry: these, and those of new slaves."""
        given = {key_of(row): row for row in rows}
        known = [f"line running {time}"]
        for address in sorted(self.slaves):
            known += [f"slave {address} WaitPrm none 0 off --------", f"set {address} 11 none 0 ---", f"prm {address} none",
                      f"in {address} {self.inputs} {self.inputs}", f"out {address} {self.outputs} {self.outputs}",
                      f"diag {address} ------- -"]
            known += [f"last {address} {master} none" for master in self.masters]
        assert set(given) <= {key_of(row) for row in known}, f"a row of no slave or master: {rows}"
        return [f"rack-audit 3 line 1 from {after}", *(given.get(key_of(row), row) for row in known)]


def key_of(row):
    """Returns the words of a row of a head that say what it is about."""
    words = row.split(" ")
    return tuple(words[:3 if words[0] == "last" else 2])


class Asked(NamedTuple):
    """The words of `ask`."""

    master: int
    slave: int
    code: int
    point: "int | None"
    data: bytes

    @property
    def octets(self):
        """The octets of the request."""
        return frames.request(self.slave, self.master, self.code, self.data, self.point, self.ssap)

    @property
    def ssap(self):
        """The source access point; without a point of the slave there is none."""
        return None if self.point is None else SSAP

    def reply(self, kind, word):
        """Returns the outcome of a short form of a reply."""
        if kind == "ack":
            return "reply e5 Done"
        if kind in REFUSALS:
            return f"reply {frames.sd1(self.master, self.slave, REFUSALS[kind]).hex()} {word}"
        data = octets_of(word)
        return f"reply {frames.request(self.master, self.slave, PRIORITIES[kind], data, self.ssap, self.point).hex()} Done"


def octets_of(word):
    return b"" if word == "-" else bytes.fromhex(word)


def asked(words):
    master, address, code, point, data = words
    return Asked(int(master), int(address), int(code, 16), None if point == "default" else int(point), octets_of(data))


class Event(NamedTuple):
    """An event, what an audit text has of it, and what it releases if the halt is recorded in its place."""

    text: str
    is_recorded: bool
    facts: str
    outcome: str
    halt: "str | None"

    @property
    def command(self):
        """The row of a script."""
        return f"m{self.text[3:]}" if self.master else self.text

    @property
    def master(self):
        """The number of the master, if it is a request."""
        words = self.text.split(" ")
        return words[1] if words[0] == "req" else None

    @property
    def answer(self):
        """The row that a script writes."""
        return f"{self.master}: {self.outcome}" if self.master else self.outcome


def event_of(command, answer):
    """Returns the event of a row."""
    words = command.split(" ")
    request = asked(words[1:]) if words[0] == "ask" else None
    parts = answer.split(" | ")
    is_recorded = parts[0] != "-"
    facts, outcome, *halt = parts if is_recorded else parts[1:]
    kind, _, word = outcome.partition(" ")
    if request and (kind == "ack" or kind in REFUSALS or kind in PRIORITIES):
        outcome = request.reply(kind, word)
    text = f"req {request.master} {request.octets.hex()}" if request else command
    return Event(text, is_recorded, facts, outcome, halt[0] if halt else None)


class Rows:
    """A table of rows, and all that the program has to say of it."""

    def __init__(self, described, text):
        self.described, self.commands, self.answers, self.entries, self.heads = described, [], [], [], {}
        self.time = "none"
        for row in text.strip().splitlines():
            command, _, answer = row.partition(" => ")
            self.add(command, answer)

    def add(self, command, answer):
        """Adds a row."""
        if command == "head":
            self.heads[len(self.entries)] = self.described.head(answer.split("; "), len(self.entries), self.time)
        elif command.split(" ")[0] in ("owned", "show", "step"):
            self.commands.append(command)
            self.answers.append(answer)
        else:
            self.add_event(event_of(command, answer))

    def add_event(self, event):
        """Adds an event, and its entry, or that of the halt."""
        self.commands.append(event.command)
        self.answers.append(event.answer)
        place = len(self.entries) + 1
        if event.is_recorded:
            self.entries.append(f"{place} {event.text} | {event.facts} | {event.outcome}")
        elif event.halt:
            self.entries.append(f"{place} halt | none | {event.halt}")
        if event.is_recorded and event.text.startswith("tick "):
            self.time = int(event.text[5:]) + (0 if self.time == "none" else self.time)

    @property
    def journal(self):
        """The rows of the audit text."""
        return ["rack-audit 2 line 1", *self.entries]

    @property
    def parts(self):
        """The rows of the text of the endless line, with a head wherever one is asked for."""
        rows = ["rack-audit 3 line 1"]
        for place in range(len(self.entries) + 1):
            rows += self.heads.get(place, []) + self.entries[place:place + 1]
        return rows


def text_of(rows):
    return "".join(f"{row}\n" for row in rows)


def checked(run, folder, described, text):
    """Returns how the check of an audit text ends: its status, its output and its errors."""
    (folder / "rack.toml").write_text(described.rack, encoding="utf-8")
    (folder / "text.audit").write_text(text, encoding="utf-8")
    return run("check", "rack.toml", "text.audit", cwd=folder)


def check(run, folder, described, text):
    """Checks the audit text of the rows: the one with all heads, if there are some."""
    rows = Rows(described, text)
    audit = rows.parts if rows.heads else rows.journal
    assert checked(run, folder, described, text_of(audit)) == (0, f"legal {len(rows.entries)}\n", "")


def play(run, folder, described, text):
    """Runs the rows as a script, compares each answer and then the journal; and checks the audit text of the rows."""
    rows = Rows(described, text)
    done = run(input=text_of([described.rack + "%%", *rows.commands, "journal"]))
    assert done == (0, text_of([*rows.answers, *rows.journal]), "")
    check(run, folder, described, text)
