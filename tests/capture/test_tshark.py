"""tshark reads the captures: by its own fields, and by those of the dissector share/fdl.lua."""
import os
from typing import NamedTuple

import pytest

from oracle.captures import expected, explained
from oracle.dissection import FIELDS, PLAIN, differences, dissected_row, holder_rows, plain_row
from support import racks
from support.captured_texts import DAY, TESTS, Text, explained_texts, read_by_tshark, tree_of_tshark
from support.telegrams import set_prm, slave_diag

pytest.importorskip("tomllib", reason="tomllib of Python 3.11 is not installed")

DISSECTOR = TESTS.parent / "share" / "fdl.lua"
# The address of the last possible master; 127 is that of all stations.
LAST_MASTER = 126
DISSECTED = ["frame.number", "_ws.col.Protocol", "_ws.col.Source", "_ws.col.Destination", "_ws.col.Info", *FIELDS]
# Edits of the dissector that are wrong, and the fields that tshark then reads otherwise.
WRONG_DISSECTORS = [
    ("another bit is FCB", '"FCB, frame count bit", base.DEC, BITS, 0x20', '"FCB", base.DEC, BITS, 0x10', {"fdl.fcb"}),
    # the dissector chooses the fields of the data by the name of the service
    ("Set_Prm has another name", '[61] = "Set_Prm"', '[61] = "Set_Pr"',
     {"_ws.col.Info", "fdl.service", "fdl.prm.lock_req", "fdl.prm.unlock_req", "fdl.prm.watchdog", "fdl.prm.min_tsdr",
      "fdl.prm.ident", "fdl.prm.groups"}),
    ("the watchdog is a tenth", "range(2, 1):uint() * 10)", "range(2, 1):uint() * 1)", {"fdl.prm.watchdog"}),
    ("the holder is another octet", "tree:add(diag.holder, range(3, 1))", "tree:add(diag.holder, range(2, 1))",
     {"fdl.diag.holder"}),
    ("another check sequence", "(sum + tvb(at, 1):uint()) % 256", "(sum + tvb(at, 1):uint()) % 255",
     {"_ws.col.Info", "fdl.fcs_good"}),
    ("other words in Info", " FCB %d FCV %d", " FCB %d, FCV %d", {"_ws.col.Info"}),
    ("events are not known", '"^operator %-> (%a+)', '"^operator %-> (%d+)',
     {"_ws.col.Info", "_ws.col.Source", "_ws.col.Destination", "fdl.event"}),
    ("an event has no words in Info", "pinfo.cols.info = text", 'pinfo.cols.info = "an event"', {"_ws.col.Info"}),
    ("an event has another sender", 'pinfo.cols.src = "operator"', 'pinfo.cols.src = "line"', {"_ws.col.Source"}),
    ("an event is for any slave", 'kind == "slave" and address or kind', "kind", {"_ws.col.Destination"}),
    ("an event has no field", "root:add(fdl):add(f.event, text)", "root:add(fdl)", {"fdl.event"}),
]


# Edits of the dissector that name holders otherwise.
WRONG_HOLDERS = [
    ("no master has a name", "for address = 0, 126 do", "for address = 0, -1 do"),
    ("the last master has no name", "for address = 0, 126 do", "for address = 0, 125 do"),
    ("each name is that of the master before", '"held by master " .. address', '"held by master " .. address - 1'),
    ("nobody has no name", '{ [NO_MASTER] = "held by nobody" }', "{}"),
]


class Captures(NamedTuple):
    """A file of captures, and what tshark has to read of its packets without the dissector and with it."""

    path: os.PathLike
    plain: list
    dissected: list
    holders: list


def captures_of(capture, texts, folder):
    """Captures texts into one file, which is a capture too: so tshark starts once for all of them."""
    path, plain, dissected, holders = folder / "captures.pcapng", [], [], []
    with open(path, "wb") as file:
        for text in texts:
            file.write(capture(text.rack, text.audit).octets)
            blocks, _ = explained(str(text.rack), [str(text.audit)])
            packets = expected(str(text.rack), [str(text.audit)])[0].packets
            holders += holder_rows(packets)
            for packet in packets:
                dissected.append(dissected_row(len(dissected) + 1, packet, blocks))
                plain.append(plain_row(len(plain) + 1, packet))
    return Captures(path, plain, dissected, holders)


def compare(tshark, path, fields, wanted, *options):
    """Returns what tshark reads otherwise in the packets of a file. It has to read as many packets as are wanted."""
    rows, status = read_by_tshark(tshark, path, fields, *options)
    assert (status, len(rows)) == (0, len(wanted))
    return differences(rows, wanted)


@pytest.fixture
def all_captures(capture, tmp_path):
    """The captures of the explained texts in one file."""
    captures = captures_of(capture, explained_texts(), tmp_path)
    assert len(captures.plain) >= 1_000
    return captures


@pytest.fixture
def day(capture, tmp_path):
    """The capture of the day of a line."""
    return captures_of(capture, [DAY], tmp_path)


def test_all_captures_without_the_dissector(all_captures, tshark):
    """The names of interfaces are left out: tshark 4.0 mixes them up if a file has several sections."""
    for row in all_captures.plain:
        del row["frame.interface_name"]
    assert compare(tshark, all_captures.path, PLAIN, all_captures.plain) == []


def test_all_captures_with_the_dissector(all_captures, tshark):
    assert compare(tshark, all_captures.path, DISSECTED, all_captures.dissected, "-X", f"lua_script:{DISSECTOR}") == []


def test_one_capture_without_the_dissector(day, tshark):
    assert compare(tshark, day.path, PLAIN, day.plain) == []


def test_one_capture_with_the_dissector(day, tshark):
    assert compare(tshark, day.path, DISSECTED, day.dissected, "-X", f"lua_script:{DISSECTOR}") == []


def changed_dissector(folder, old, new):
    """Returns the path of the dissector with one text exchanged."""
    lua, wrong = DISSECTOR.read_text(encoding="utf-8"), folder / "wrong.lua"
    assert lua.count(old) == 1
    wrong.write_text(lua.replace(old, new), encoding="utf-8")
    return wrong


@pytest.mark.parametrize("old, new, fields", [row[1:] for row in WRONG_DISSECTORS],
                         ids=[row[0].replace(" ", "-") for row in WRONG_DISSECTORS])
def test_wrong_dissector_is_found(day, tshark, tmp_path, old, new, fields):
    wrong = changed_dissector(tmp_path, old, new)
    found = compare(tshark, day.path, DISSECTED, day.dissected, "-X", f"lua_script:{wrong}")
    assert {difference.field for difference in found} == fields


def holders_read(tshark, path, dissector):
    """Returns the rows that name holders, of all packets of a file."""
    return [row for row in tree_of_tshark(tshark, path, dissector) if row.startswith("Master_Add: ")]


def test_each_holder_has_a_name(all_captures, tshark):
    assert {row.split(" (")[0] for row in all_captures.holders} >= {"Master_Add: held by nobody",
                                                                    "Master_Add: held by master 1"}
    assert holders_read(tshark, all_captures.path, DISSECTOR) == all_captures.holders


@pytest.fixture
def held_by_last(run, capture, tmp_path):
    """The capture of a slave that nobody holds at first, and then the last possible master."""
    rack, audit = tmp_path / "rack.toml", tmp_path / "last.audit"
    rack.write_text(racks.rack(racks.line(1, 5, masters=[LAST_MASTER])), encoding="ascii")
    telegrams = [slave_diag(LAST_MASTER, 5), set_prm(LAST_MASTER, 5, 0x5D), slave_diag(LAST_MASTER, 5, 0x7D)]
    rows = [f"m {LAST_MASTER} {telegram.hex(' ')}\n" for telegram in telegrams]
    (tmp_path / "script.txt").write_text("".join([*rows, "journal\n"]), encoding="ascii")
    done = run("run", rack, tmp_path / "script.txt")
    assert (done.status, done.errors) == (0, "")
    audit.write_text("rack-audit " + done.output.partition("rack-audit ")[2], encoding="ascii")
    captures = captures_of(capture, [Text(rack, audit)], tmp_path)
    assert captures.holders == ["Master_Add: held by nobody (255)", "Master_Add: held by master 126 (126)"]
    return captures


def test_first_and_last_holder_have_names(held_by_last, tshark):
    assert holders_read(tshark, held_by_last.path, DISSECTOR) == held_by_last.holders


@pytest.mark.parametrize("old, new", [row[1:] for row in WRONG_HOLDERS], ids=[row[0].replace(" ", "-") for row in WRONG_HOLDERS])
def test_wrong_name_of_a_holder_is_found(held_by_last, tshark, tmp_path, old, new):
    wrong = changed_dissector(tmp_path, old, new)
    assert holders_read(tshark, held_by_last.path, wrong) != held_by_last.holders
