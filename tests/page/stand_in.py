"""A stand-in for the server of `rackd watch`: it serves the page files, and a state.json that a test makes.

A `Rack` has lines, and a line entries; both are as the watch answers them. The rack of `sample` is what most tests use.
"""
import contextlib
import copy
import http.server
import json
import re
import threading
import time
from pathlib import Path

# The fields of each answer.
FIELDS = {
    "allow": "GET, HEAD", "cache-control": "no-store", "x-content-type-options": "nosniff",
    "referrer-policy": "no-referrer",
    "content-security-policy": "default-src 'none'; style-src 'self'; script-src 'self'; connect-src 'self'; "
    "img-src data:; base-uri 'none'; form-action 'none'; frame-ancestors 'none'",
}
FILES = {"/": ("page.html", "text/html"), "/page.css": ("page.css", "text/css"),
         "/page.js": ("page.js", "text/javascript")}
# How many entries of a line are answered: the last ones, and of those before them the notable ones.
RECENT, NOTABLE = 300, 120
POINTS = {"Data_Exchange": None, "RD_Inp": 56, "RD_Outp": 57, "Global_Control": 58, "Get_Cfg": 59, "Slave_Diag": 60,
          "Set_Prm": 61, "Chk_Cfg": 62}


def escaped(value):
    """Returns a value in which each text is one of octets: of UTF-8, or those that are given."""
    if isinstance(value, str):
        return value.encode().decode("latin-1")
    if isinstance(value, bytes):
        return value.decode("latin-1")
    if isinstance(value, list):
        return [escaped(one) for one in value]
    return {key: escaped(one) for key, one in value.items()} if isinstance(value, dict) else value


def outcome_of(sentence, rule):
    """Returns the outcome of an answer with this sentence, by this rule."""
    return "refused" if sentence.startswith("refused") else {"Done": "done", "Repeat": "repeat"}.get(rule, "no_reply")


def reason_of(sentence):
    """Returns the kind of a reason that the page reads, as an object of its facts."""
    wrong = re.match("wrong (parameters|configuration)", sentence)
    return {"kind": f"Wrong{wrong[1].title()}" if wrong else "Read"}


def event(place, event, rule="Done", sentence="done.", reply="SC, short acknowledgement", **fields):
    """An entry, as `rackd explain --json` writes it, as far as the page reads it."""
    entry = {"version": 2, "kind": "entry", "place": place, "time": None, "from": "master", "master": 1, "to": "slave",
             "address": 5, "event": event, "answer": {"outcome": outcome_of(sentence, rule), "rule": rule, "words": reply},
             "refused": False, "fault": False, "surprising": False, "reason": reason_of(sentence), "sentence": sentence,
             "slaves": [], "changes": [], "releases": []}
    return entry | fields


def request(place, master, slave, service, sentence="done.", rule="Done", **fields):
    """A request of a master to a slave. It is refused if its sentence says so, unless the fields say otherwise."""
    point = POINTS.get(service)
    frame = "SD2 SRD high FCB 1 FCV 1  " + (service if point is None else f"{service} ({point}) from 62")
    refused = sentence.startswith("refused")
    fields = {"refused": refused, "fault": refused or sentence.startswith("wrong")} | fields
    if refused and "reply" not in fields:
        fields["reply"] = "RS, not activated"
    sent = {"kind": "request", "dsap": point, "ssap": 62 if point else None,
            "service": service if service in POINTS else None, "octets": "680505688581",
            "decoded": fields.pop("decoded", None), "words": frame}
    return event(place, sent, rule, sentence, master=master, address=slave, **fields)


def to_all(place, master, sentence, slaves, command="Sync; group 1", **fields):
    """A Global_Control to all slaves."""
    sent = {"kind": "request", "dsap": 58, "ssap": 62, "service": "Global_Control", "octets": "680505688581",
            "decoded": {"as": "command", "words": command},
            "words": "SD2 SDN high FCB 0 FCV 0  Global_Control (58) from 62"}
    answers = [{"slave": slave, "outcome": outcome_of(words, rule), "rule": rule, "reason": reason_of(words),
                "sentence": words} for slave, rule, words in slaves]
    return event(place, sent, None, sentence, None, master=master, to="all_slaves", address=None, slaves=answers, **fields)


def operation(place, words, sentence="done.", slave=None, **fields):
    """An event of the operator, for a slave or for the line."""
    kinds = {"inputs": "in", "diagnosis": "diag", "halt": "halt"}
    first = words.split(" ")[0]
    sent = {"kind": kinds.get(first, "tick" if first.isdecimal() else "busy"), "words": words}
    return event(place, sent, None, sentence, None, **{"from": "operator"}, master=None,
                 to="line" if slave is None else "slave", address=slave, **fields)


def change(slave, before, after):
    """A change of a slave between two conditions, each in words."""
    return {"slave": slave, "before": condition(before), "after": condition(after)}


def condition(words):
    state, holder = words.split(", held by ")
    return {"state": state, "holder": None if holder == "nobody" else int(holder.removeprefix("master "))}


def note(file, text):
    return {"begins": file, "note": text}


FREE, LOCKED, RUNNING = "Wait_Prm, held by nobody", "Wait_Cfg, held by master {}", "Data_Exch, held by master {}"


def slave(address, **fields):
    """A slave that nobody holds."""
    quiet = {"ext_diag": False, "stat_diag": False, "overflow": False, "unread": False, "prm_fault": False,
             "cfg_fault": False, "not_supported": False, "octets": ""}
    one = {"address": address, "ident": "80A1", "state": "Wait_Prm", "holder": None, "since": 0, "release": None,
           "left": None, "full": None, "min_tsdr": 11, "group": 0, "inputs": "0000", "shown": "0000",
           "outputs": "0000", "latest": "0000", "sync": False, "freeze": False, "cleared": False, "diagnosis": quiet,
           "busy": [], "lockers": None, "readers": None, "has_sync": False, "has_freeze": False, "failsafe": False}
    diagnosis = quiet | fields.pop("diagnosis", {})
    return one | fields | {"diagnosis": diagnosis}


def held(address, master, since, **fields):
    """A slave in Data_Exch, with a watchdog of a second."""
    return slave(address, state="Data_Exch", holder=master, since=since, **{"left": 90, "full": 100} | fields)


def way(name, count, fault=False):
    return {"way": name, "count": count, "fault": fault}


class Line:
    """What the watch knows of a line, and its entries with their numbers."""

    def __init__(self, number, masters, slaves, **fields):
        self.entries = []
        self.fields = {"line": number, "file": f"line-{number}-1.audit", "standing": "legal", "row": 0, "begun": 0,
                       "count": 0, "capacity": 65536, "halted": False, "time": None,
                       "masters": [self.master(one, slaves) for one in (*masters, None)], "slaves": slaves} | fields

    @staticmethod
    def master(address, slaves):
        holding = [one for one in slaves if one["holder"] == address and address is not None]
        holds = [one["address"] for one in sorted(holding, key=lambda one: one["since"])]
        return {"address": address, "holds": holds, "ways": []}

    def answer(self, after):
        newest = self.entries[-RECENT:]
        older = [one for one in self.entries[:-RECENT] if "note" in one["entry"] or one["entry"]["fault"]
                 or one["entry"]["changes"]][-NOTABLE:]
        return self.fields | {"notable": [one for one in older if one["number"] > after],
                              "recent": [one for one in newest if one["number"] > after]}


class Rack:
    """What the watch answers. A test changes it while the page follows it."""

    def __init__(self, *lines, rack="rack.toml", folder="audit", run=1795744528917764238):
        self.lock = threading.Lock()
        self.lines, self.rack, self.folder, self.run, self.number = list(lines), rack, folder, run, 1
        self.silent, self.queries, self.delay = False, [], 0

    def add(self, *entries, line=0):
        """Adds entries to a line, and counts those that are no notes."""
        with self.lock:
            for entry in entries:
                self.number += 1
                self.lines[line].entries.append({"number": self.number, "entry": entry})
                if "note" not in entry:
                    self.lines[line].fields["count"] += 1

    def set(self, line=0, **fields):
        """Changes fields of a line."""
        with self.lock:
            self.number += 1
            self.lines[line].fields.update(fields)

    def set_slave(self, address, line=0, **fields):
        """Changes fields of a slave."""
        with self.lock:
            self.number += 1
            for one in self.lines[line].fields["slaves"]:
                if one["address"] == address:
                    one.update(fields)

    def restart(self):
        """Another run of the watch begins, and numbers its entries from 1 again."""
        with self.lock:
            self.run += 1
            self.number = 1
            for line in self.lines:
                for one in line.entries:
                    self.number += 1
                    one["number"] = self.number

    def answer(self, query):
        """Returns what is sent to a query; nothing if the watch is silent."""
        with self.lock:
            self.queries.append(query)
            if self.silent:
                return None
            known = re.fullmatch(r"run=(\d+)&after=(\d+)", query)
            after = int(known[2]) if known and int(known[1]) == self.run else 0
            head = {"run": str(self.run), "number": self.number, "same": after == self.number}
            if after != self.number:
                head |= {"rack": self.rack, "folder": self.folder, "lines": [line.answer(after) for line in self.lines]}
            return json.dumps(escaped(copy.deepcopy(head)), separators=(",", ":"))


class StandIn:
    """Serves page files of a folder, and the answers of a rack, on a port of 127.0.0.1 that the system chooses."""

    def __init__(self, folder):
        server = self
        self.folder, self.rack = Path(folder), None

        class Handler(http.server.BaseHTTPRequestHandler):
            protocol_version = "HTTP/1.1"

            def do_GET(self):
                kind, body = server.content(self.path)
                if body is None:
                    self.close_connection = True
                    return
                self.send_response(200 if kind else 404)
                for name, value in FIELDS.items():
                    self.send_header(name, value)
                self.send_header("content-type", kind or "text/plain")
                self.send_header("content-length", str(len(body)))
                self.end_headers()
                with contextlib.suppress(ConnectionError):
                    self.wfile.write(body)

            def log_message(self, *_):
                pass

        self.http = http.server.ThreadingHTTPServer(("127.0.0.1", 0), Handler)
        self.url = f"http://127.0.0.1:{self.http.server_port}/"
        self.thread = threading.Thread(target=self.http.serve_forever, args=(0.02,), daemon=True)

    def __enter__(self):
        self.thread.start()
        return self

    def __exit__(self, *_):
        self.http.shutdown()
        self.http.server_close()

    def content(self, target):
        """Returns the type and the content of what was asked for; no content if there is no answer."""
        path, _, query = target.partition("?")
        if path == "/state.json":
            time.sleep(self.rack.delay)
            answer = self.rack.answer(query)
            return "application/json", None if answer is None else answer.encode("ascii")
        if path not in FILES:
            return None, b"no such page\n"
        name, kind = FILES[path]
        return kind, (self.folder / name).read_bytes()


def sample():
    """A rack of two lines: five slaves and three masters with refusals and other faults, and a quiet line."""
    slaves = [
        held(5, 1, 3, inputs="0102", shown="0102", outputs="a001", latest="a002", sync=True, has_sync=True,
             has_freeze=True, group=5),
        held(6, 2, 4, left=15, inputs="0304", shown="0102", freeze=True, has_freeze=True, ident="0B3C",
             diagnosis={"ext_diag": True, "unread": True, "octets": "040700ff"}, busy=[None, 60]),
        slave(9, lockers=[1], readers=[1, 2], release={"place": 8, "ending": "its watchdog ran out"}),
        slave(12, lockers=[2, 3], failsafe=True, diagnosis={"prm_fault": True}),
        slave(20, lockers=[], readers=[], outputs="", latest=""),
    ]
    first = Line(1, [1, 2, 3], slaves, time=200)
    first.fields["masters"][0]["ways"] = [way("NotActive", 2, True), way("Done", 4916)]
    first.fields["masters"][1]["ways"] = [way("NotHolder", 3, True), way("wrong Set_Prm", 1, True), way("Done", 1000)]
    first.fields["masters"][3]["ways"] = [way("NoMaster", 1, True)]
    rack = Rack(first, Line(2, [1, 4], [slave(33)]))
    parameters = {"as": "parameters", "words": "Lock_Req; watchdog 1000 ms; min TSDR 11; ident 80A1; groups 1, 3"}
    rack.add(
        note("line-1-1.audit", "line-1-1.audit begins; every slave waits for its parameters"),
        request(1, 1, 5, "Slave_Diag", reply="Station_Not_Ready; Prm_Req; held by nobody; ident 80A1"),
        request(2, 2, 12, "Set_Prm", "wrong parameters: ident 80D2, the slave has 80A1.", decoded=parameters),
        request(3, 1, 5, "Set_Prm", "locked: master 1 holds slave 5.", decoded=parameters,
                changes=[change(5, FREE, LOCKED.format(1))]),
        request(4, 2, 6, "Set_Prm", "locked: master 2 holds slave 6.", decoded=parameters,
                changes=[change(6, FREE, LOCKED.format(2))]),
        request(5, 1, 5, "Chk_Cfg", "good configuration: number 0.",
                decoded={"as": "configured", "words": "21 outputs 2 octets"},
                changes=[change(5, LOCKED.format(1), RUNNING.format(1))]),
        request(6, 1, 9, "Set_Prm", "locked: master 1 holds slave 9.", decoded=parameters,
                changes=[change(9, FREE, LOCKED.format(1))]),
        request(7, 1, 5, "Data_Exchange", decoded={"as": "outputs", "words": "a0 01"}, reply="inputs 01 02"),
        operation(8, "100 units of time, 1000 ms",
                  "released: 9 (its watchdog of 1000 ms ran out: master 1 sent nothing that restarts it).", fault=True,
                  changes=[change(9, LOCKED.format(1), FREE)]),
        operation(9, "4 units of time, 40 ms", "no watchdog ran out.", time=100),
        request(10, 1, 12, "Chk_Cfg", "refused: NotActive. Slave 12 is in Wait_Prm, where Chk_Cfg is off.",
                "NotActive", decoded={"as": "configured", "words": "11 inputs 2 octets"}, time=104),
        request(11, 2, 5, "Set_Prm", "refused: NotHolder. Master 1 holds slave 5 since entry 3.", "NotHolder",
                decoded=parameters, time=104),
        request(12, 2, 5, "Chk_Cfg", "refused: NotHolder. Master 1 holds slave 5 since entry 3.", "NotHolder",
                decoded={"as": "configured", "words": "21 outputs 2 octets"}, time=104),
        operation(13, "inputs 01 02", slave=5, time=104),
        request(14, 2, 5, "Set_Prm", "refused: NotHolder. Master 1 holds slave 5 since entry 3.", "NotHolder",
                decoded=parameters, time=104),
        request(15, 1, 5, "Data_Exchange", decoded={"as": "outputs", "words": "a0 02"}, reply="inputs 01 02", time=104),
    )
    rack.add(operation(1, "inputs 00 00", slave=33), line=1)
    return rack
