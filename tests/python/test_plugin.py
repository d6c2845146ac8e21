"""The plugin for pytest: its fixtures and its reports, in runs of pytest of their own, and the test of docs/guide/05-ci.md."""
import re
import textwrap

import pytest

from support.package_runs import TOP, names_in, run_pytest
from support.racks import line as line_text
from support.racks import rack as rack_text
from support.racks import slave

CHAPTER = TOP / "docs" / "guide" / "05-ci.md"
# Masters wait long, so that a run on a machine that is busy is like any other one.
CONFTEST = """
import rackd

begin = rackd.Master.__init__

def begin_patiently(self, *words, **options):
    begin(self, *words, **options)
    self.timeout = 60

rackd.Master.__init__ = begin_patiently
"""
# Master 1 holds slave 5, master 2 is refused, and the log has a row about two octets.
LOCK = """
def lock(rack):
    line = rack.line(1)
    line.master(1).set_prm(5, 0x80A1)
    line.master(1)._send(b"\\x00\\x01")
    with pytest.raises(rackd.RS):
        line.master(2).set_prm(5, 0x80A1)
    while not any("dropped 2 octets" in row for row in rack.log()):
        time.sleep(0.01)
"""


@pytest.fixture
def run_tests(tmp_path):
    """A function that runs a file of tests with these words of pytest, and returns what it writes.

    Its last row has to have these counts.
    """
    (tmp_path / "conftest.py").write_text(CONFTEST, encoding="utf-8")

    def run(text, *words, counts):
        code = "import os, time, pytest, rackd\n\n" + textwrap.dedent(text)
        (tmp_path / "test_it.py").write_text(code, encoding="utf-8")
        done = run_pytest(tmp_path, *words)
        assert re.search(rf"= {counts} in ", done.output.splitlines()[-1]), done.output + done.errors
        return done.output

    return run


def test_racks_end_with_their_tests(run_tests, tmp_path):
    run_tests('''
        def note(rack):
            with open("pids", "a") as file:
                file.write(f"{rack.pid}\\n")

        def test_sample(rack):
            note(rack)
            assert rack.line(1).operator().step() == 2

        def test_factory(rack_factory):
            racks = [rack_factory(rackd.SAMPLE, tick=10) for _ in range(2)]
            for rack in racks:
                note(rack)
            assert racks[0].line(1).listen != racks[1].line(1).listen

        def test_they_are_gone():
            for pid in open("pids"):
                with pytest.raises(ProcessLookupError):
                    os.kill(int(pid), 0)
        ''', counts="3 passed")
    assert len((tmp_path / "pids").read_text(encoding="ascii").split()) == 3


def test_rack_of_ones_own(run_tests, tmp_path):
    (tmp_path / "own.toml").write_text(rack_text(line_text(1, 5, slave(9, ident=1, cfg="11"))), encoding="ascii")
    run_tests('''
        @pytest.fixture
        def rack_toml():
            return "own.toml"

        def test_own(rack):
            assert rack.line(1).operator().show(9).inputs == b"\\0\\0"
        ''', counts="1 passed")


def sections_of(text):
    """Returns the titles and the texts of what a report explains."""
    return re.findall(r"-+ (explain --faults, [\w, ]+) -+\n(.*?)\n(?=[-=_])", text, re.S)


def test_report_of_a_failed_test(run_tests):
    text = run_tests(LOCK + textwrap.dedent('''
        def test_it(rack):
            lock(rack)
            assert rack.line(1).operator().owned(1) == []

        def test_two(rack_factory):
            racks = [rack_factory(rackd.SAMPLE) for _ in range(2)]
            lock(racks[1])
            assert not racks
        '''), counts="2 failed")
    sections = sections_of(text)
    assert [title for title, _ in sections] == [f"explain --faults, line 1{which}" for which in ("", ", rack 1", ", rack 2")]
    reason = "refused: NotHolder. Master 1 holds slave 5 since entry 1."
    assert [reason in report for _, report in sections] == [True, False, True]
    assert [report.splitlines()[-1] for _, report in sections] == ["legal 2", "legal 0", "legal 2"]
    assert len(re.findall(r"-+ log of rackd(?:, rack [12])? -+\n", text)) == 3
    assert text.count("line 1 master 1: dropped 2 octets: NoStart (00 01)") == 2


def test_report_of_a_test_that_passed(run_tests):
    text = run_tests('''
        def test_it(rack):
            print("it passes")
        ''', "-rP", counts="1 passed")
    assert "it passes" in text
    assert "explain" not in text


def test_journal_that_is_not_legal(run_tests, tmp_path):
    text = run_tests('''
        def test_it(rack):
            rack.line(1).operator().tick()
            file, = rack.line(1).files()
            file.write_text(file.read_text().replace("released", "done"))
        ''', counts="1 passed, 1 error")
    assert "rackd.faults.NotLegal: the journal of line 1 is not legal: not the policy 2" in text
    assert len(names_in(tmp_path, "rackd-*/audit/line-1-1.audit")) == 1


def test_all_racks_end_if_one_fails(run_tests):
    text = run_tests('''
        def test_it(rack_factory):
            racks = [rack_factory(rackd.SAMPLE) for _ in range(3)]
            open("pids", "w").write(" ".join(str(rack.pid) for rack in racks))
            os.kill(racks[1].pid, 9)
            racks[1]._process.wait()

        def test_they_are_gone():
            for pid in open("pids").read().split():
                with pytest.raises(ProcessLookupError):
                    os.kill(int(pid), 0)
        ''', counts="2 passed, 1 error")
    assert "the rack was ended by signal 9 (SIGKILL) before it was closed" in text


def test_rack_that_is_killed(run_tests):
    text = run_tests('''
        def test_it(rack):
            rack.line(1).operator().tick()
            os.kill(rack.pid, 9)
            rack._process.wait()
            rack.line(1).operator().tick()
        ''', counts="1 failed, 1 error")
    assert "rackd.faults.RackFault: the rack was ended by signal 9 (SIGKILL) before it was closed" in text
    assert "explain --faults, line 1" in text


def test_twelve_lines_of_the_manual(tmp_path):
    section = CHAPTER.read_text(encoding="utf-8").partition("\n## A first test\n")[2].partition("\n## ")[0]
    lines = section[section.index("    import pytest\n"):].splitlines()
    code = lines[:12]
    assert all(not line or line.startswith("    ") for line in code)
    assert not (lines[12].startswith("    ") or lines[12])
    (tmp_path / "conftest.py").write_text(CONFTEST, encoding="utf-8")
    (tmp_path / "test_rack.py").write_text("\n".join(line[4:] for line in code) + "\n", encoding="utf-8")
    done = run_pytest(tmp_path)
    assert done.status == 0 and "= 1 passed in " in done.output, done.output
