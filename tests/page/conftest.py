"""Fixtures of the tests of the page: racks that are watched, and pages of the stand-in in a browser."""
import os
from pathlib import Path

import pytest

from page.shown_racks import ShownRack
from page.stand_in import StandIn
from support.watching import AuditFolder, Watched, tick_rack, two_lines


@pytest.fixture
def watch(program):
    """A function that starts `rackd watch` on a rack file and a folder, with options, and waits until it is ready."""
    started = []

    def start(rack_file, folder, *options):
        watched = Watched(program, rack_file, folder, *options)
        started.append(watched)
        return watched.wait_until_ready()

    yield start
    for watched in started:
        watched.kill()


@pytest.fixture
def audit(tmp_path):
    """A new folder of audit texts."""
    return AuditFolder(tmp_path / "audit")


@pytest.fixture
def two_line_rack(tmp_path):
    """The path of a rack file whose line 1 is that of the day, beside a line 2."""
    path = tmp_path / "two-lines.toml"
    path.write_text(two_lines(), encoding="ascii")
    return path


@pytest.fixture
def endless_rack(tmp_path):
    """The path of a rack file of one endless line, for texts of ticks."""
    path = tmp_path / "endless.toml"
    path.write_text(tick_rack(), encoding="ascii")
    return path


@pytest.fixture(scope="session")
def page_files(top):
    """The folder with page.html, page.css and page.js: that of the sources, or the one that the variable PAGES names."""
    return Path(os.environ.get("PAGES", top / "crates" / "watch_page" / "page"))


@pytest.fixture
def shown(browser, page_files):
    """A page in a tab of its own, which shows racks of the stand-in. No script of it may throw an error."""
    tab = browser.page()
    with StandIn(page_files) as server:
        yield ShownRack(server, tab)
        thrown = tab.events("Runtime.exceptionThrown")
        tab.close()
    assert thrown == []
