"""Heads of a line of four slaves, and what can be changed in each of them, field by field.

The heads are those of `oracle.heads` behind runs of the program, whose audit text the explainer takes as well.
"""
import random
import re
from typing import Dict, List, NamedTuple, Optional, Tuple

from oracle.explainer import ENDLESS_CAPACITY, Line, LineSpec, read_rack, rows_of
from oracle.heads import head_text, states_behind
from rackd import frames
from support.racks import line, rack, slave
from support.telegrams import FIRST, chk_cfg, data_exchange, global_control, set_prm, slave_diag

MASTERS = [1, 2, 3]
# Slave 5 has Sync and Freeze. Slave 6 has Sync and is fail-safe; of its configurations 2 equals 0, and 3 has no inputs. Slave 7
# has Freeze and no inputs. Nobody may lock slave 8.
RACK = rack(line(7, slave(5, sync=True, freeze=True, user_max=3, lockers=[1, 2]),
                 slave(6, sync=True, failsafe=True, cfg=["2111", "2010", "2111", "21"]),
                 slave(7, freeze=True, cfg="21", user_max=0), slave(8, cfg="11", lockers=[]), masters=MASTERS, capacity=1000))
HEADER = "rack-audit 2 line 7\n"
CLEAR, UNFREEZE, FREEZE, SYNC = 0x02, 0x04, 0x08, 0x20
# Function codes of SRD with FCV 1, by the FCB, and of one with neither.
WITH_0, WITH_1, WITHOUT = 0x5D, 0x7D, 0x4D


def says(master, octets):
    """Returns the row of a script in which a master sends octets."""
    return f"m {master} {octets.hex()}"


def bring_up(master, address, cfg=b"\x21\x11", **options):
    """Returns the rows that bring a slave to Data_Exch."""
    return [says(master, set_prm(master, address, FIRST, **options)), says(master, chk_cfg(master, address, FIRST, cfg))]


# Slave 5 is in both modes and has data that wait for Sync; 6 is cleared; 7 waits for its configuration; 8 has a diagnosis.
EXCHANGING = [
    "tick 3", "in 5 aa55", "in 8 0107", "diag 8 es 0407", "busy 7 58 on",
    *bring_up(1, 5, watchdog_ms=1000, group=3, min_tsdr=60, sync=True, freeze=True, user=b"\x0a\xff"),
    says(1, data_exchange(1, 5, FIRST, b"\x01\x02")), says(1, global_control(1, SYNC | FREEZE, slave=5)), "in 5 bb66",
    says(1, data_exchange(1, 5, WITH_0, b"\x03\x04")), "tick 5",
    *bring_up(2, 6, b"\x20\x10", watchdog_ms=2550, sync=True), says(2, data_exchange(2, 6, WITH_1, b"\x09")),
    says(2, global_control(2, CLEAR)),
    says(3, set_prm(3, 7, FIRST, watchdog_ms=40, freeze=True)), says(3, slave_diag(3, 8)), says(3, slave_diag(3, 5)),
    says(2, slave_diag(2, 5, WITHOUT)), "diag 5 o -", "tick 2",
]
# Slave 5 had a wrong configuration, 6 wrong parameters; 7 is in freeze mode; 8 is as at the start.
FAULTS = [
    *bring_up(2, 5, b"\x21", min_tsdr=12), says(1, set_prm(1, 6, FIRST, freeze=True)), "in 6 1234",
    *bring_up(2, 7, b"\x21", freeze=True), says(2, global_control(2, FREEZE, slave=7)), "diag 7 - -",
    says(2, data_exchange(2, 7, WITH_1, b"\x08\x09")), says(3, data_exchange(3, 7, FIRST, b"\x08\x09")),
]
# Slave 5 is in no mode, with an old copy of its inputs; 6 has no inputs; 7 was locked at the last place.
PLAIN = [
    "in 5 0102", *bring_up(1, 5, watchdog_ms=650250, freeze=True, user=b"\x01"), says(1, global_control(1, FREEZE, slave=5)),
    says(1, global_control(1, UNFREEZE, slave=5)), "in 5 0304", says(1, data_exchange(1, 5, FIRST, b"\x05\x06")),
    *bring_up(1, 6, b"\x21", sync=True, group=255), "diag 6 e 0155", says(1, data_exchange(1, 6, FIRST, b"\x07\x08")),
    "in 8 ffff", "tick 65024", says(2, slave_diag(2, 8)), says(2, set_prm(2, 7, FIRST)),
]
RUNS = {"start": [], "exchanging": EXCHANGING, "faults": FAULTS, "plain": PLAIN, "halted": [*EXCHANGING, "halt"]}


def spec_of_line() -> LineSpec:
    return read_rack(RACK)[0]


def head_behind(run, folder, script: List[str]) -> str:
    """Returns the head of the line behind the rows of a script, which the program runs."""
    rack_file, script_file = folder / "rack.toml", folder / "script"
    rack_file.write_text(RACK, encoding="ascii")
    script_file.write_text("".join(f"{row}\n" for row in [*script, "journal"]), encoding="ascii")
    done = run("run", rack_file, script_file)
    assert (done.status, done.errors) == (0, "")
    entries = rows_of(done.output[done.output.index(HEADER):])[1:]
    assert len(entries) == len(script), done.output
    states = states_behind(Line(spec_of_line(), ENDLESS_CAPACITY), entries)
    assert len(states) == len(entries) + 1, f"the explainer refuses entry {len(states)}"
    return head_text(states[-1])


# ---- Changes


class Change(NamedTuple):
    """A change of a field: the new words of rows, by the indices of the row and the word. Without a word the row is new."""

    field: str
    words: Dict[Tuple[int, Optional[int]], str]


class GoodHead:
    """The rows of a head, and what can be changed in them."""

    def __init__(self, text: str):
        self.rows = [row.split(" ") for row in text.splitlines()]
        self.count = int(self.rows[0][-1])
        self.places = {int(row[4]) for row in self.rows if row[0] == "slave"}

    def with_changes(self, *changes: Change) -> str:
        """Returns the text of the head with these changes."""
        rows = [list(row) for row in self.rows]
        for change in changes:
            for (row, word), new in change.words.items():
                rows[row] = new.split(" ") if word is None else [*rows[row][:word], new, *rows[row][word + 1:]]
        return "".join(" ".join(row) + "\n" for row in rows)

    def changes(self) -> List[Change]:
        """Returns each change of one field."""
        found = list(self.changes_of_the_line())
        for index, row in enumerate(self.rows[2:], 2):
            found += CHANGES_OF_ROWS[row[0]](self, index, row)
        return [change for change in found if any(self.is_new(place, new) for place, new in change.words.items())]

    def is_new(self, place, new):
        row, word = place
        return new != (" ".join(self.rows[row]) if word is None else self.rows[row][word])

    def changes_of_the_line(self):
        yield from self.numbers("place", 0, 5, (0, 1, *around(self.count), *self.places, 2**32 - 1), 2**32 - 1)
        yield from words("halted", 1, 1, ("halted", "running", "Halted", "run"))
        yield from self.numbers("time", 1, 2, ("none", 0, 1, 18929, 2**64 - 1), 2**64 - 1)

    def numbers(self, field, row, word, values, most=255):
        """Yields changes of a number to these values, to one that is too large, and to one with a zero before it."""
        yield from words(field, row, word, (*values, most + 1, f"0{self.rows[row][word]}"))

    def letters(self, fields, row, word):
        """Yields, for each letter of a word, the change between set and not set, and one to another letter."""
        given = self.rows[row][word]
        for place, (field, letter) in enumerate(fields):
            for new in ("-" if given[place] == letter else letter, "z"):
                yield Change(field, {(row, word): given[:place] + new + given[place + 1:]})

    def changes_of_state(self, row, given):
        yield from words("state", row, 2, ("WaitPrm", "WaitCfg", "DataExch", "Wait_Prm"))
        yield self.release(row)
        yield from self.numbers("holder", row, 3, ("none", 0, 1, 2, 3, 4, 255))
        yield from self.numbers("since", row, 4, (0, 1, 2, *around(self.count), *self.places), 2**32 - 1)
        full = self.rows[row + 2][2]
        values = around(int(full)) if full not in ("off", "none") else [1, 100]
        yield from self.numbers("left", row, 5, ("off", 0, 1, *values, 4_000_000_000), 2**32 - 1)
        yield from self.letters([(f"busy {letter}", letter) for letter in "xiogcdpk"], row, 6)

    def release(self, row):
        """Returns the change of a slave to a released one, by all fields that a release changes."""
        zeros = re.sub("[0-9a-f]", "0", self.rows[row + 4][2])
        return Change("state", {(row, 2): "WaitPrm", (row, 3): "none", (row, 4): "0", (row, 5): "off", (row + 1, 3): "none",
                                (row + 1, 5): "---", (row + 2, None): f"prm {self.rows[row][1]} none", (row + 4, 2): zeros,
                                (row + 4, 3): zeros})

    def changes_of_settings(self, row, given):
        yield from self.numbers("min TSDR", row, 2, (0, 1, 10, 11, 255))
        yield from self.numbers("configuration", row, 3, ("none", 0, 1, 2, 3, 4, 255))
        yield from self.numbers("shape", row, 4, (0, 1, 2, 3, 4, 255))
        yield from self.changes_of_shape(row, given)
        yield from self.letters([("sync mode", "s"), ("freeze mode", "f"), ("cleared", "c")], row, 5)

    def changes_of_shape(self, row, given):
        """Yields changes of the shape, and also of the configuration that was sent, with data of zeros of its lengths."""
        lengths = LENGTHS[int(given[1])]
        for number in range(5):
            inputs, outputs = ("00" * length or "-" for length in (lengths[number] if number < len(lengths) else (0, 0)))
            data = {(row + 2, 2): inputs, (row + 2, 3): inputs, (row + 3, 2): outputs, (row + 3, 3): outputs}
            yield Change("shape", {(row, 4): str(number), **data})
            yield Change("configuration", {(row, 4): str(number), (row, 3): str(number), **data})

    def changes_of_parameters(self, row, given):
        head = " ".join(given[:2])
        yield from (Change("parameters", {(row, None): f"{head} {new}"}) for new in
                    ("none", "off -- 11 0 -", "off -- 11 0 - -", "100 -- 11 0 -", "off sf 0 255 -", "off", "none none"))
        if given[2] != "none":
            left = self.rows[row - 2][5]
            values = around(int(left)) if left != "off" else []
            times = ("off", 0, 1, 255, 256, 257, 510, *values, 65021, 65025, 65026, 65280, 70000, 2**32 - 1)
            yield from self.numbers("watchdog", row, 2, times, 2**32 - 1)
            yield from self.letters([("Sync_Req", "s"), ("Freeze_Req", "f")], row, 3)
            yield from self.numbers("min TSDR of Set_Prm", row, 4, (0, 11, 255))
            yield from self.numbers("group", row, 5, (0, 1, 255))
            yield from words("User_Prm", row, 6, ("-", *("5a" * count for count in (1, 2, 3, 4, 237, 238)), "5A", "5", ""))

    def changes_of_inputs(self, row, given):
        yield from octets("inputs", row, 2, given[2])
        yield from octets("copy", row, 3, given[3])

    def changes_of_outputs(self, row, given):
        yield from octets("outputs", row, 2, given[2])
        yield from octets("latest", row, 3, given[3])
        yield from (Change("outputs", {(row, 2): new, (row, 3): new}) for new in ("00" * (len(given[2]) // 2) or "-",
                                                                                "5a" * (len(given[2]) // 2) or "-"))

    def changes_of_diagnosis(self, row, given):
        names = ("Ext_Diag", "Stat_Diag", "Ext_Diag_Overflow", "unread", "Prm_Fault", "Cfg_Fault", "Not_Supported")
        yield from self.letters(list(zip(names, "esoupcn")), row, 2)
        yield from words("extended", row, 3, ("-", "04", "5a" * 238, "5a" * 239, "5A"))

    def changes_of_memory(self, row, given):
        head, address, master = " ".join(given[:3]), int(given[1]), int(given[2])
        # all for one master, and some for the others
        for reply in ("none", *replies_to(address, master)[::1 if master == MASTERS[0] else 6]):
            yield Change("reply", {(row, None): f"{head} {reply if reply == 'none' else f'1 {reply}'}"})
        if given[3] != "none":
            yield from words("FCB", row, 3, ("0", "1", "2", "-"))
            yield from words("reply", row, 4, ("", given[4][:-2], given[4] + "00", given[4].upper()))


CHANGES_OF_ROWS = {"slave": GoodHead.changes_of_state, "set": GoodHead.changes_of_settings,
                   "prm": GoodHead.changes_of_parameters, "in": GoodHead.changes_of_inputs, "out": GoodHead.changes_of_outputs,
                   "diag": GoodHead.changes_of_diagnosis, "last": GoodHead.changes_of_memory}
# Function codes of telegrams without data: of replies to an SRD, of other responses, and of requests.
SHORT_CODES = (0x01, 0x02, 0x03, 0x0A, 0x00, 0x04, 0x08, 0x0F, 0x13, 0x43, 0x6D, 0x83)
# Of telegrams with access points: bit 7 of DA and SA, the function code and the data unit. In the last two a point is not
# plain, or is missing.
POINTED = (
    (0x80, 0x80, 0x08, b"\x3e\x38\xaa\x55"), (0x80, 0x80, 0x0A, b"\x3e\x38\xaa\x55"), (0x80, 0x80, 0x08, b"\x3e\x39\x05"),
    (0x80, 0x80, 0x08, b"\x3e\x39\x05\x06"), (0x80, 0x80, 0x08, b"\x3e\x3d\x05\x06"), (0x80, 0x80, 0x08, b"\x3e\x38"),
    (0, 0x80, 0x08, b"\x3b\x21\x11"), (0, 0x80, 0x08, b"\x3b\x21"), (0, 0x80, 0x08, b"\x3c" + bytes(5)),
    (0, 0x80, 0x08, b"\x3c" + bytes(6)), (0x80, 0, 0x0A, b"\x3e\x05"), (0x80, 0, 0x08, b"\x40\x05"),
    (0x80, 0x80, 0x08, b"\x3e"))
# The octets of inputs and outputs of each configuration of the slaves.
LENGTHS = {5: [(2, 2)], 6: [(2, 2), (1, 1), (2, 2), (0, 2)], 7: [(0, 2)], 8: [(2, 0)]}


def around(number):
    """Returns a number with those beside it, as far as they are not negative."""
    return [value for value in (number - 1, number, number + 1) if value >= 0]


def words(field, row, word, values):
    return (Change(field, {(row, word): str(value)}) for value in values)


def octets(field, row, word, given):
    """Yields changes of octets: others of the same length, and other lengths and forms."""
    length = 0 if given == "-" else len(given) // 2
    same = ["00" * length, "5a" * length, "00" * (length - 1) + "01"] if length else []
    yield from words(field, row, word, (*same, "-", "5a" * (length + 1), "5a" * 245, "5A" * length))


def replies_to(address, master):
    """Yields octets that may be a reply of a slave to a master: replies, other telegrams, and octets that are no telegram."""
    data = frames.sd2(master, address, 0x08, b"\xaa\x54")
    codes = [frames.sd1(master, address, code) for code in SHORT_CODES]
    addresses = [frames.sd1(*pair, 0x03) for pair in ((master, address ^ 1), (master ^ 4, address), (address, master),
                                                      (master | 0x80, address), (master, address | 0x80), (127, address))]
    forms = [b"\xe5", frames.token(master, address), frames.sd3(master, address, 0x08, bytes(8)), data,
             *(frames.sd2(master, address, code, bytes(count)) for code, count in (
                 (0x0A, 1), (0x0A, 2), (0x03, 2), (0x08, 1), (0x08, 3), (0x08, 244), (0x08, 245)))]
    pointed = [frames.sd2(master | to, address | of, code, du) for to, of, code, du in POINTED]
    broken = [b"", bytes.fromhex("deadbeef"), data[:-2] + bytes([data[-2] ^ 1, 0x16]), data[:-1] + b"\x17", data + b"\x00",
              data[:-1], data[:1] + b"\x06" + data[2:], b"\xe5\xe5", bytes(256)]
    return [reply.hex() or "-" for reply in codes + addresses + forms + pointed + broken]


def fit_together(one: Change, other: Change) -> bool:
    """Returns whether two changes are of two fields, and none is of a whole row that the other one changes too."""
    whole = {row for change in (one, other) for row, word in change.words if word is None}
    return one.field != other.field and not whole & {row for row, _ in one.words} & {row for row, _ in other.words}


def some_pairs(changes: List[Change], count: int, seed: int) -> List[Tuple[Change, Change]]:
    """Returns pairs of changes that fit together."""
    choose, found = random.Random(seed), []
    while len(found) < count:
        one, other = choose.sample(changes, 2)
        found += [(one, other)] if fit_together(one, other) else []
    return found
