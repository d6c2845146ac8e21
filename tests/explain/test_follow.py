"""`rackd explain --follow` on one file: each entry is explained once its row is there, and a wrong row ends it."""
import subprocess

import pytest

from support.clients import exchange, open_master
from support.explanations import STORED, day, entries_of, first_blocks, read
from support.processes import PATIENCE
from support.racks import usual_rack
from support.telegrams import fresh_diagnosis, slave_diag

# Rows 7 of the day of a line in place of the right one, and the verdicts on them.
WRONG_ROWS = {
    "another-outcome": (lambda row: row.replace("Done", "Busy"), "not the policy 8\n"),
    "badly-formed": (lambda row: "7 nonsense\n", "bad line 8\n"),
}
# The blocks of a request to slave 5 that nobody holds, and of one to an address without a station.
DIAGNOSIS = """\
    1  master 1 -> slave 5       SD2 SRD high FCB 1 FCV 0  Slave_Diag (60) from 62
       result      done.
       reply       Station_Not_Ready; Prm_Req; held by nobody; ident 80A1
"""
NO_STATION = """\
    2  master 1 -> slave 9       SD2 SRD high FCB 1 FCV 0  Slave_Diag (60) from 62
       result      silence: NoStation. No slave has this address.
"""
HINT = '  row 1: expected a header, as "rack-audit 2 line 1"; leave out a row "ready" before it\n'


def test_row_in_pieces(follow):
    """A row is explained once its LF is there, and not before."""
    rack, rows, entries = day()
    followed, text = follow(rack), "".join(rows[:5])
    for octet in text[:-1]:
        followed.write(octet)
    followed.expect_nothing_more(first_blocks(entries, 3))
    followed.write(text[-1])
    followed.expect(first_blocks(entries, 4))


def test_rows_after_a_pause(follow):
    """What is there at first is explained at once, and it goes on at the end of the file."""
    rack, rows, entries = day()
    followed = follow(rack)
    followed.write("".join(rows[:11]))
    followed.expect(first_blocks(entries, 10))
    followed.expect_nothing_more(first_blocks(entries, 10))
    followed.write("".join(rows[11:]))
    followed.expect(entries)
    followed.expect_nothing_more(entries)


@pytest.mark.parametrize("change, verdict", WRONG_ROWS.values(), ids=WRONG_ROWS.keys())
def test_wrong_row(follow, change, verdict):
    rack, rows, entries = day()
    assert change(rows[7]) != rows[7]
    followed = follow(rack)
    followed.write("".join(rows[:7]))
    followed.expect(first_blocks(entries, 6))
    followed.write(change(rows[7]))
    assert followed.wait() == (1, first_blocks(entries, 6) + verdict, "")


def test_row_behind_a_wrong_row(follow):
    """Nothing behind the first wrong row is explained, also if it comes with it."""
    rack, rows, entries = day()
    followed = follow(rack)
    followed.write("".join(rows[:4]) + "4\n" + "".join(rows[4:]))
    assert followed.wait() == (1, first_blocks(entries, 3) + "bad line 5\n", "")


@pytest.mark.parametrize("first, errors", [pytest.param("ready\n", HINT, id="ready"),
                                           pytest.param("rack-audit 2 line 7\n", "", id="line-that-the-rack-lacks")])
def test_no_header(follow, first, errors):
    rack, rows, _ = day()
    followed = follow(rack)
    followed.write(first + rows[1])
    assert followed.wait() == (1, "bad line 1\n", errors)


@pytest.mark.parametrize("kind, address", [("slave", 99), ("master", 98)])
def test_missing_station(follow, kind, address):
    """An address that the line does not have is refused once the header is there."""
    rack, rows, _ = day()
    followed = follow(rack, f"--{kind}", address)
    followed.expect_nothing_more("")
    followed.write(rows[0])
    assert followed.wait() == (2, "", f"rackd: the line has no {kind} {address}\n")


def test_missing_file(run, tmp_path):
    rack, _, _ = day()
    path = tmp_path / "none"
    done = run("explain", rack, path, "--follow")
    assert (done.status, done.output, done.errors.split("\n")[0]) == (2, "", f"rackd: cannot read {path}")


def test_reader_goes(program, tmp_path):
    """If nobody reads standard output any more, it ends with status 0 at the next row."""
    rack, rows, entries = day()
    path = tmp_path / "followed.audit"
    with open(path, "w", encoding="ascii") as file:
        file.write("".join(rows[:3]))
        file.flush()
        command = [program, "explain", str(rack), str(path), "--follow"]
        with subprocess.Popen(command, stdin=subprocess.DEVNULL, stdout=subprocess.PIPE, stderr=subprocess.PIPE) as process:
            try:
                assert process.stdout.readline().decode() == entries.split("\n")[0] + "\n"
                process.stdout.close()
                file.write("".join(rows[3:]))
                file.flush()
                assert (process.wait(PATIENCE), process.stderr.read()) == (0, b"")
            finally:
                process.kill()


@pytest.mark.parametrize("name", ["two_masters", "wrong_ident", "busy"])
def test_chosen_entries(follow, name):
    """The options that choose entries do so while a text is followed."""
    folder = STORED / "stories"
    followed = follow(folder / "rack.toml", "--faults")
    followed.write(read(folder / f"{name}.audit"))
    followed.expect_nothing_more(entries_of(read(folder / f"{name}-faults.out")))


def test_rack_that_is_served(serve, follow, tmp_path):
    """The file of a rack that is served is followed: a request is explained while the rack goes on."""
    server = serve(usual_rack(1), "--audit", tmp_path / "audit")
    followed = follow(server.rack, files=[tmp_path / "audit" / "line-1-1.audit"], writes=False)
    master = open_master(server.ports[1].listen, 1)
    assert exchange(master, slave_diag(1, 5)) == fresh_diagnosis(1, 5)
    followed.expect(DIAGNOSIS)
    followed.expect_nothing_more(DIAGNOSIS)
    master.send(slave_diag(1, 9))
    followed.expect(DIAGNOSIS + NO_STATION)
    followed.expect_nothing_more(DIAGNOSIS + NO_STATION)
    master.close()
