"""Files of times beside audit texts: they grow with the entries, and no reply waits for them."""
import re
import time

import pytest

from audit.endless import SMALL_PARTS, part_paths, rack_of_sixteen, tokens
from support.audit_texts import header, text_name, time_rows, times_name
from support.clients import exchange, open_master, wait_for
from support.loads import SilentLoad
from support.racks import usual_rack
from support.telegrams import fresh_diagnosis, slave_diag
from support.watched_writes import WatchedWrites

# The file of times of line 1, and how many requests are answered while its writes are held up or refused.
TIMES, MEANWHILE = times_name(text_name(1)), 200
# Seconds in which a file would grow by several rows if one were written without an entry.
QUIET = 0.5


def ask(master, count):
    """Has a master ask this number of times for the diagnosis of slave 5, each with another FCB, and checks each reply."""
    for turn in range(count):
        assert exchange(master, slave_diag(1, 5, 0x5D if turn % 2 else 0x7D)) == fresh_diagnosis(1, 5)


def milliseconds():
    """Returns the milliseconds since 1970 by the clock that the program reads too."""
    return time.time_ns() // 1_000_000


def test_rows_grow_with_entries(serve, tmp_path):
    """The first and the last entry have a row soon, with the time at which they came. Without entries nothing is written."""
    folder, begun = tmp_path / "audit", milliseconds()
    server = serve(usual_rack(), "--audit", folder)
    assert not (folder / TIMES).exists()
    master = open_master(server.ports[1].listen, 1)
    ask(master, 7)
    asked = milliseconds()
    wait_for(lambda: time_rows(folder / TIMES)[-1:] and time_rows(folder / TIMES)[-1][0] == 7)
    rows = time_rows(folder / TIMES)
    assert rows[0][0] == 1
    assert [place for place, _ in rows] == sorted({place for place, _ in rows})
    assert [moment for _, moment in rows] == sorted(moment for _, moment in rows)
    assert begun <= rows[0][1] and rows[-1][1] <= asked
    before = (folder / TIMES).read_bytes()
    time.sleep(QUIET)
    assert (folder / TIMES).read_bytes() == before
    again = milliseconds()
    ask(master, 1)
    wait_for(lambda: time_rows(folder / TIMES)[-1][0] == 8)
    assert again <= time_rows(folder / TIMES)[-1][1] <= milliseconds()


def test_last_entries_have_rows(serve, tmp_path):
    """When serving has ended, the last entry has a row, also if it came just before the end."""
    folder = tmp_path / "audit"
    server = serve(usual_rack(), "--audit", folder, "--until-input-ends", piped=True)
    ask(open_master(server.ports[1].listen, 1), 3)
    server.end_input()
    assert server.wait().status == 0
    assert time_rows(folder / TIMES)[-1][0] == 3


def test_each_line_has_its_times(serve, tmp_path):
    """The entries of two lines that come at one time have rows in the file of their own line."""
    folder = tmp_path / "audit"
    server = serve(usual_rack(1, 2), "--audit", folder, "--until-input-ends", piped=True)
    masters = [open_master(server.ports[number].listen, 1) for number in (1, 2)]
    for _ in range(3):
        for count, master in zip((1, 2), masters):
            ask(master, count)
    server.end_input()
    server.wait()
    for number, last in (1, 3), (2, 6):
        places = [place for place, _ in time_rows(folder / times_name(text_name(number)), number)]
        assert (places[0], places[-1]) == (1, last)


def entry_places(text):
    """Returns the places of the entries of a part. Rows of heads begin with a letter."""
    return [int(place) for place in re.findall(rb"^[0-9]+", text, re.MULTILINE)]


def test_each_part_has_its_times(serve, tmp_path):
    """The rows of each file are in order, and each entry of its part is between two of them. Those of all files begin at the first
    entry and end at the last one."""
    folder = tmp_path / "audit"
    server = serve(rack_of_sixteen(), "--audit", folder, *SMALL_PARTS, "--until-input-ends", piped=True)
    load = SilentLoad(server, 100, tokens(100), until=lambda: len(list(folder.glob("*.times"))) >= 3)
    load.start()
    load.finish()
    server.end_input()
    server.wait()
    # the last part may have its head only, and a part that begins and ends between two writes has no file of times
    entries = [(path.name, found) for path in part_paths(folder) if (found := entry_places(path.read_bytes()))]
    places = {name: [place for place, _ in time_rows(folder / times_name(name))] for name, _ in entries
              if (folder / times_name(name)).exists()}
    assert len(places) >= 2
    for name, found in entries:
        if name in places:
            assert places[name] == sorted(set(places[name])), name
            assert places[name][0] <= found[0] and found[-1] <= places[name][-1], name
    written = [place for part in places.values() for place in part]
    assert (min(written), max(written)) == (1, entries[-1][1][-1])


def test_replies_do_not_wait_for_times(serve, tmp_path):
    """While a write to the file is held up, masters and operators are answered. Afterwards the last entry gets its row."""
    folder, watch = tmp_path / "audit", WatchedWrites(delay=None, end=".times")
    server = serve(usual_rack(), "--audit", folder, before=watch.ask)
    master = open_master(server.ports[1].listen, 1)
    ask(master, 1)
    wait_for(lambda: watch.writes == 1)
    ask(master, MEANWHILE)
    with server.operator() as operator:
        assert operator.ask("in 5 aa55") == "done"
    assert watch.writes == 1
    assert time_rows(folder / TIMES) == []
    watch.released.set()
    wait_for(lambda: time_rows(folder / TIMES)[-1:] and time_rows(folder / TIMES)[-1][0] == MEANWHILE + 2)


def assert_served_without_times(server, folder, master, assert_legal):
    """Asserts that replies come and that the text is whole at the end, and that one row of the log names the file of times."""
    wait_for(lambda: str(folder / TIMES) in server.errors())
    ask(master, MEANWHILE)
    master.close()
    server.end_input()
    done = server.wait()
    assert done.status == 0
    rows = [row for row in done.errors.splitlines() if str(folder / TIMES) in row]
    assert len(rows) == 1 and "line 1: cannot write times to" in rows[0]
    assert_legal(server.rack, folder / text_name(1), entries=MEANWHILE + 1)


@pytest.mark.parametrize("full", [0, 1], ids=["header", "row"])
def test_refused_writes(serve, tmp_path, assert_legal, full):
    """A device without space for the file is one row of the log, and serving goes on."""
    folder, watch = tmp_path / "audit", WatchedWrites(full=full, end=".times")
    server = serve(usual_rack(), "--audit", folder, "--until-input-ends", piped=True, before=watch.ask)
    master = open_master(server.ports[1].listen, 1)
    ask(master, 1)
    assert_served_without_times(server, folder, master, assert_legal)
    assert watch.writes == full + 1


def test_file_that_is_there(serve, tmp_path, assert_legal):
    """A file of times that is there is left as it is."""
    folder = tmp_path / "audit"
    folder.mkdir()
    (folder / TIMES).write_bytes(b"mine")
    server = serve(usual_rack(), "--audit", folder, "--until-input-ends", piped=True)
    master = open_master(server.ports[1].listen, 1)
    ask(master, 1)
    assert_served_without_times(server, folder, master, assert_legal)
    assert (folder / TIMES).read_bytes() == b"mine"
    assert (folder / text_name(1)).read_bytes().startswith(header(1))
