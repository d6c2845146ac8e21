"""The program `rackd watch`, what its page is sent, and the folder of audit texts that a test writes for it."""
import http.client
import json
import re
import subprocess
import time
from pathlib import Path
from typing import NamedTuple

from support.audit_texts import header, text_name
from support.clients import wait_for
from support.processes import PATIENCE
from support.racks import line, rack, slave
from support.running import Running

TOP = Path(__file__).resolve().parent.parent.parent
# The day of a line: its rack file, its audit text, and its explanation.
DAY_RACK = TOP / "examples" / "day-of-a-line-rack.toml"
DAY = TOP / "examples" / "day-of-a-line.audit"
DAY_EXPLAINED = TOP / "examples" / "day-of-a-line.explained"
# The header of the text of an endless line.
ENDLESS_HEADER = header(1, version=3)


class Answer(NamedTuple):
    """The answer to a request: its status, its fields by their names in small letters, and its body."""

    status: int
    fields: dict
    body: bytes


def until_equal(read, wanted, within=PATIENCE):
    """Calls a function until it returns what is wanted; fails after a number of seconds."""
    until = time.monotonic() + within
    while (seen := read()) != wanted and time.monotonic() < until:
        time.sleep(0.02)
    assert seen == wanted, f"after {within} seconds it is {seen!r}, not {wanted!r}"


def port_of(row):
    """Returns the port that the program writes for its page."""
    found = re.fullmatch(r"watching at http://127\.0\.0\.1:(\d+)/", row)
    assert found, f"the row is {row!r}"
    return int(found[1])


def ask(port, method, path, host=None):
    """Sends a request with a Host, by default the right one, and returns its answer."""
    connection = http.client.HTTPConnection("127.0.0.1", port, timeout=PATIENCE)
    try:
        connection.putrequest(method, path, skip_host=True, skip_accept_encoding=True)
        connection.putheader("Host", f"127.0.0.1:{port}" if host is None else host)
        connection.endheaders()
        answer = connection.getresponse()
        return Answer(answer.status, {name.lower(): value for name, value in answer.getheaders()}, answer.read())
    finally:
        connection.close()


def state_of(port, query=""):
    """Returns what the page is sent."""
    answer = ask(port, "GET", "/state.json" + query)
    assert (answer.status, answer.fields["content-type"]) == (200, "application/json")
    return json.loads(answer.body)


def line_of(port, number=1):
    """Returns what the page is sent about a line."""
    return next(one for one in state_of(port)["lines"] if one["line"] == number)


def wait_for_line(port, key, wanted, number=1):
    """Waits until what a function returns of a line is what is wanted, and returns that line."""
    seen = []

    def read():
        seen[:] = [line_of(port, number)]
        return key(seen[0])

    until_equal(read, wanted)
    return seen[0]


class Watched(Running):
    """A process of `rackd watch` on a rack file and a folder. Its page is at `port`, once it is ready."""

    def __init__(self, program, rack_file, folder, *options, wrapper=()):
        super().__init__([*wrapper, program, "watch", rack_file, folder, *options], stdin=subprocess.DEVNULL)
        self.port = None

    def is_ready(self):
        """Waits until it has written its address or has ended, and returns whether it is ready."""
        wait_for(lambda: "\n" in self.output.so_far() or self.output.is_over)
        if "\n" not in self.output.so_far():
            return False
        self.port = port_of(self.output.row())
        return True

    def wait_until_ready(self):
        """Waits until it is ready."""
        assert self.is_ready(), f"it has ended with {self.errors.rest()!r}"
        return self

    @property
    def url(self):
        return f"http://127.0.0.1:{self.port}/"

    def state(self, query=""):
        """Returns what the page is sent."""
        return state_of(self.port, query)

    def line(self, number=1):
        """Returns what the page is sent about a line."""
        return line_of(self.port, number)

    def wait_for_line(self, key, wanted, number=1):
        """Waits until what a function returns of a line is what is wanted, and returns that line."""
        return wait_for_line(self.port, key, wanted, number)


class AuditFolder:
    """A new folder of audit texts, to which a test adds rows."""

    def __init__(self, path):
        self.path = Path(path)
        self.path.mkdir()

    def write(self, name, *rows):
        """Adds rows to a file."""
        with open(self.path / name, "ab", buffering=0) as file:
            file.write(b"".join(rows))


def wait_for_a_look(watched, audit):
    """Waits until line 1 of a rack of two lines has been looked at, with all that is in the folder now.

    In each round in which texts are looked for, line 1 has its turn before line 2. Line 2 gets two new texts, one after
    the other: between the moments at which they are found, there is a whole turn of line 1.
    """
    for _ in range(2):
        name = text_name(2, len(list(audit.path.glob("line-2-*.audit"))) + 1)
        audit.write(name, header(2))
        watched.wait_for_line(lambda line: (line["file"], line["standing"]), (name, "legal"), number=2)


# ---- what the page is sent


def standing(line):
    """Returns the file of a line, its standing, its first wrong row, and the number of its entries."""
    return line["file"], line["standing"], line["row"], line["count"]


def count(line):
    """Returns the number of the entries of a line."""
    return line["count"]


def entries(line):
    """Returns the entries of a line, without its notes."""
    return [each["entry"] for each in line["notable"] + line["recent"] if "place" in each["entry"]]


def places(line):
    """Returns the places of the entries of a line."""
    return [entry["place"] for entry in entries(line)]


def notes(line):
    """Returns the notes of a line: the file of the text that begins, and the words about it."""
    stored = [each["entry"] for each in line["notable"] + line["recent"]]
    return [(entry["begins"], entry["note"]) for entry in stored if "note" in entry]


# ---- racks and texts


def day_rows():
    """Returns the rows of the audit text of the day of a line: its header and 28 entries."""
    return DAY.read_bytes().splitlines(keepends=True)


def two_lines():
    """Returns a rack whose line 1 is that of the day, and which has a line 2 beside it."""
    return rack(line(1, slave(5, sync=True, freeze=True), masters=[1, 2], capacity=1000), line(2, 5))


def tick_rack():
    """Returns a rack of one endless line with slave 5, for texts of `ticks` and `polls`."""
    return rack(line(1, slave(5, ident=1), masters=[1], capacity=2))


def ticks(first, number):
    """Returns rows of ticks that release nobody, from a place on."""
    return b"".join(b"%d tick 1 | none | released\n" % place for place in range(first, first + number))


def polls(first, number):
    """Returns rows of requests of master 1 to address 9, which no slave has: each is a fault."""
    return b"".join(b"%d req 1 100901494316 | none | silence NoFrame\n" % place for place in range(first, first + number))
