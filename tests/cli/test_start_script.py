"""The script ./rackd and dist/refresh, in small checkouts with a stand-in for rt and for the program."""
import os
from pathlib import Path

import pytest

from support.checkouts import Checkout, Rt

NO_RT = "rackd: there is no program that is built from these sources, and no rt on the PATH to build it\n"
NO_PROGRAM = f"{NO_RT}rackd: put an rt on the PATH, or restore the program by 'git checkout HEAD dist crates crates.txt'\n"
# The same if a program of other sources is carried.
OTHER_PROGRAM = (
    f"{NO_RT}rackd: put the rt of a kit on the PATH, or restore the sources of dist/x86_64-linux/rackd by "
    "'git checkout HEAD crates crates.txt'\n")
FIRST = "rackd: proving and building the program; from nothing that takes minutes\n"
AGAIN = "rackd: proving and building what has changed\n"
WRONG = "src/lib.rt:1:1: error: wrong\n"
NOT_BUILT = f"{WRONG}rackd: the program could not be built\n"
# What rt says of functions that are proved is not passed on.
FAILS = Rt(says=f"fn low::f: proved\n{WRONG.rstrip()}", status=1)
RUNS = (5, "runs [word]\n", "")
REFUSES = (70, "", NO_PROGRAM)


@pytest.fixture
def checkout(top, tmp_path):
    """A small checkout without a program."""
    return Checkout(top, tmp_path)


@pytest.fixture
def built(checkout):
    """A small checkout with a program that rt has built, and nothing that is carried."""
    assert checkout.start("word", rt=Rt()) == (5, "runs [word]\n", FIRST)
    return checkout


@pytest.fixture
def carrying(built):
    """A small checkout that only has a program that is carried."""
    assert built.refresh(rt=Rt()).status == 0
    built.forget()
    return built


def same(one, other):
    return one.read_bytes() == other.read_bytes() and Path(f"{one}.built").read_bytes() == Path(f"{other}.built").read_bytes()


# ---- links

LINKS = ["absolute", "chained", "below/relative", "linked/top/rackd"]


@pytest.fixture
def links(carrying, tmp_path):
    """A folder with links to the script: one, a chain, a relative one, and a folder that is a link."""
    (tmp_path / "absolute").symlink_to(carrying.script)
    (tmp_path / "chained").symlink_to("absolute")
    (tmp_path / "below").mkdir()
    (tmp_path / "below/relative").symlink_to("../chained")
    (tmp_path / "linked").mkdir()
    (tmp_path / "linked/top").symlink_to(carrying.folder)
    return tmp_path


@pytest.mark.parametrize("name", LINKS)
def test_link_to_the_script(carrying, links, name):
    assert carrying.start("--version", by=links / name) == (0, "runs [--version]\n", "")


def test_link_from_another_folder(carrying, links):
    assert carrying.start("--version", by="./relative", cwd=links / "below") == (0, "runs [--version]\n", "")


def test_copy_elsewhere(carrying, tmp_path):
    copied = tmp_path / "copied"
    copied.write_bytes(carrying.script.read_bytes())
    copied.chmod(0o755)
    assert carrying.start("--version", by=copied) == (2, "", (
        f"rackd: {copied} is a copy of a script that works in its repository only: link to REPOSITORY/rackd by 'ln -s', or copy "
        "the program REPOSITORY/dist/x86_64-linux/rackd\n"))


# ---- the program that is built

def test_no_rt_and_no_program(checkout):
    assert checkout.start("word") == REFUSES


def test_how_far_rt_is(checkout):
    says = "rt: chose --jobs 4 for low\nso far: 1 of 2 functions checked\nfn low::f: proved"
    assert checkout.start("word", rt=Rt(says=says)) == (5, "runs [word]\n", f"{FIRST}rackd: proving low: 1 of 2 functions\n")


def test_words_go_to_the_program_as_they_are(built):
    assert built.start("one", "two  three", "") == (5, "runs [one] [two  three] []\n", "")


def test_program_of_these_sources_asks_no_rt(built):
    assert built.start("word", rt=FAILS) == RUNS
    assert built.asked == 1


def touch(checkout):
    os.utime(checkout.source, (4_133_980_800, 4_133_980_800))


def add_files_of_editors(checkout):
    for name in ("main.rt~", "#main.rt#", ".main.rt.swp", "main.rt.orig", "notes.txt"):
        (checkout.source.parent / name).write_text("a note\n", encoding="utf-8")
    checkout.aside.write_text("//! tests\n", encoding="utf-8")
    rows = checkout.list.read_text(encoding="utf-8").splitlines(keepends=True)
    checkout.list.write_text("".join(rows[:-1]), encoding="utf-8")


def change_source(checkout):
    """Changes a source, whose time is before that of the program."""
    checkout.source.write_text("//! new\n", encoding="utf-8")
    os.utime(checkout.source, (978_307_200, 978_307_200))


def rename_source(checkout):
    checkout.source.rename(f"{checkout.source}.antt")


def change_linked_crate(checkout):
    checkout.low.write_text("//! lower\n", encoding="utf-8")


def change_library(checkout):
    text = checkout.list.read_text(encoding="utf-8")
    checkout.list.write_text(text.replace("\nlow:", "\nlow: arrayvec"), encoding="utf-8")


def change_program(checkout):
    with open(checkout.built, "a", encoding="utf-8") as program:
        program.write(":\n")


@pytest.mark.parametrize("change", [touch, add_files_of_editors])
def test_change_of_no_source(built, change):
    """A source that was touched, files of editors, and a crate that is not linked build nothing."""
    change(built)
    assert built.start("word") == RUNS
    assert built.start("word", rt=FAILS) == RUNS
    assert built.asked == 1


@pytest.mark.parametrize("change", [change_source, rename_source, change_linked_crate, change_library, change_program])
def test_change(built, change):
    change(built)
    assert built.start("word") == REFUSES


def test_change_that_is_undone(built):
    change_source(built)
    built.source.write_text("//! old\n", encoding="utf-8")
    assert built.start("word") == RUNS


def test_rt_fails(built):
    """The program that was built before is still there, but it is not run."""
    change_source(built)
    assert built.start("word", rt=FAILS) == (70, "", AGAIN + NOT_BUILT)
    assert os.access(built.built, os.X_OK)


def test_rt_fails_and_there_is_no_program(checkout):
    """It is asked again the next time."""
    assert checkout.start("word", rt=FAILS) == (70, "", FIRST + NOT_BUILT)
    assert checkout.start("word", rt=Rt()) == (5, "runs [word]\n", FIRST)
    assert checkout.asked == 2


def test_source_that_changes_while_rt_builds(built):
    """The program is run, but it is not known to be that of the sources: rt is asked once more."""
    change_source(built)
    assert built.start("word", rt=Rt(changes="//! newer")) == (5, "runs [word]\n", AGAIN)
    assert built.start("word", rt=Rt()) == (5, "runs [word]\n", AGAIN)
    assert built.start("word") == RUNS


# ---- the program that the repository carries

def test_refresh_with_a_program_of_these_sources(built):
    """The program is carried, and rt is not asked."""
    assert built.refresh(rt=FAILS).status == 0
    assert same(built.built, built.carried)
    assert built.asked == 1


def test_carried_program(carrying):
    assert carrying.start("one", "two  three") == (5, "runs [one] [two  three]\n", "")
    assert carrying.start("word", rt=FAILS) == RUNS
    assert carrying.asked == 1


def test_another_carried_program(carrying):
    """It is not run; rt builds one, which is."""
    carrying.carried.write_text("#!/usr/bin/env bash\necho carried\n", encoding="utf-8")
    assert carrying.start("word") == (70, "", OTHER_PROGRAM)
    assert carrying.start("word", rt=Rt()) == (5, "runs [word]\n", FIRST)
    assert carrying.start("word") == RUNS
    assert carrying.refresh(rt=FAILS).status == 0
    carrying.forget()
    assert carrying.start("word") == RUNS


def test_carried_program_of_other_sources(carrying):
    change_source(carrying)
    assert carrying.start("word") == (70, "", OTHER_PROGRAM)


def test_refresh_where_rt_fails(carrying):
    change_source(carrying)
    assert carrying.refresh(rt=FAILS).status == 70


def test_refresh_while_a_source_changes(carrying):
    """Then nothing is carried; called again, it has rt build the program."""
    change_source(carrying)
    ended = carrying.refresh(rt=Rt(changes="//! again"))
    assert (ended.status, ended.errors) == (1, f"{FIRST}a source changed meanwhile: call this again\n")
    assert carrying.start("word") == REFUSES
    assert carrying.refresh(rt=Rt()).status == 0
    assert same(carrying.built, carrying.carried)


def test_carried_program_that_nothing_is_known_of(carrying):
    Path(f"{carrying.carried}.built").unlink()
    assert carrying.start("word") == REFUSES
