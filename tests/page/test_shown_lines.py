"""The page: the buttons of lines, the file and the state at its head, the notices of the banner, and pausing."""
import re
import time

from page.shown_racks import NEWS, NOT_HOLDER, NOT_LISTED, exchanges, large_line, large_rack, refusal
from page.stand_in import Rack, operation, sample
from support.clients import wait_for
from support.premises import suppose, tried_again
from support.processes import PATIENCE
from support.watching import until_equal

SECOND_LINE = {(33, 1): "may lock", (33, 4): "may lock"}
# The button of a line to which entries come.
BUSY = r"Line 1 [1-9]\d*/s"
# Seconds that each answer takes: longer than the time over which the rate is taken, and shorter than what an answer may take.
SLOW = 2.1


def test_lines(shown):
    page = shown.open()
    assert page.source() == "line-1-1.audit · 15 of 65,536 places used · legal so far"
    shown.rack.set(1, begun=12)
    shown.tab.click("#lines button:nth-child(2)")
    until_equal(page.cells, SECOND_LINE)
    until_equal(page.source, "line-2-1.audit · 1 of 65,536 places used · legal so far · 12 octets of the next row")
    assert page.evaluate("location.hash") == "#line=2"


def test_line_of_the_address(shown):
    assert shown.open(fragment="#line=2").cells() == SECOND_LINE


def add_until(shown, is_seen):
    """Adds entries until something is seen, or for a minute. Returns the next place, and when it began to add the last ones."""
    place, until = 16, time.monotonic() + PATIENCE
    while not is_seen() and time.monotonic() < until:
        added = time.monotonic()
        shown.rack.add(*exchanges(place, 5))
        place += 5
        time.sleep(0.1)
    return place, added


def test_rate_of_entries(shown):
    page = shown.open()
    assert (page.buttons(), page.dots()) == (["Line 1 quiet", "Line 2 quiet"], ["none", "none"])
    assert page.live() == "no new entry"
    _, added = add_until(shown, lambda: re.fullmatch(BUSY, page.buttons()[0]) and page.live() == "last entry now")
    assert re.fullmatch(BUSY, page.buttons()[0])
    wait_for(lambda: re.fullmatch(BUSY, page.buttons()[0]) and page.dots() == ["good", "none"] or page.dots()[0] == "none")
    wait_for(lambda: re.fullmatch(r"Line 1 \d+ s ago", page.buttons()[0]))
    assert (page.buttons()[1], page.dots()) == ("Line 2 quiet", ["none", "none"])
    wait_for(lambda: page.live() != "last entry now")
    seconds = int(re.fullmatch(r"last entry (\d+) s ago", page.live())[1])
    assert 1 <= seconds <= time.monotonic() - added


@tried_again
def test_rate_of_slow_answers(shown):
    """The rate is taken from one answer to the next if they take longer than the time over which it is taken otherwise."""
    page = shown.open()
    answered, states = len(shown.rack.queries), set()
    shown.rack.delay = SLOW
    # one answer may be on its way that was not slow; no entries come before a slow one has come after it
    wait_for(lambda: len(shown.rack.queries) >= answered + 2)

    def is_seen():
        states.add(page.live())
        return re.fullmatch(BUSY, page.buttons()[0])

    add_until(shown, is_seen)
    has_rate = re.fullmatch(BUSY, page.buttons()[0])
    suppose(has_rate or "no answer" not in states, "the stand-in was too slow for the page")
    assert has_rate


def test_pause(shown):
    page = shown.open()
    shown.tab.click("#pause")
    until_equal(page.live, "paused")
    shown.follow(refusal(16, 3, 9, NOT_LISTED, "NotListed"), *exchanges(17, 400))
    shown.follow(*exchanges(417, 30))
    until_equal(page.live, "paused, 431 new")
    shown.tab.click("[data-cell='5 1']")
    assert (page.sentence(), page.places()) == (NOT_HOLDER, NEWS)
    shown.tab.click("#pause")
    until_equal(page.sentence, NOT_LISTED)
    assert page.text("#pause") == "Pause"


# ---- the banner


def test_wrong_row(shown):
    page = shown.open()
    assert page.notices() == []
    shown.rack.set(standing="not the policy", row=13)
    until_equal(page.notices, [[
        "bad", "Row 13 of line-1-1.audit is not what this line would have written. rackd check rack.toml audit/line-1-1.audit "
        "reports: not the policy 13. The page shows the line as it was before that row; nothing after it is read. Is the rack "
        "file the one that the rack was started with?"]])
    assert (page.buttons(), page.dots()) == (["Line 1 wrong row", "Line 2 quiet"], ["wrong", "none"])
    assert page.title() == "wrong row · rackd watch"
    shown.rack.set(standing="bad line", row=14)
    wait_for(lambda: "reports: bad line 14." in page.notices()[0][1])


def test_no_file(shown):
    rack = sample()
    rack.set(file=None, standing="empty", count=0)
    page = shown.open(rack)
    assert page.notices() == [["mild", "There is no audit file of line 1 yet. Start the rack with rackd serve rack.toml "
                               "--audit audit"]]
    assert page.source() == "no file yet of line 1 in audit"
    shown.rack.set(file="line-1-1.audit")
    until_equal(page.notices, [])
    until_equal(page.source, "line-1-1.audit · 0 of 65,536 places used · no header yet")


def test_halted_line(shown):
    page = shown.open()
    shown.rack.set(halted=True)
    shown.follow(operation(16, "halt", "halted; released: 5, 6.", fault=True))
    assert page.notices() == [[
        "mild", "Line 1 halted at entry 16: every slave is released, and no request is answered. Restart the rack to continue. "
        "With --endless a line does not halt when all its places are used."]]
    assert {word.replace(" ⌀", "") for word in page.cells().values()} == {"halted"}
    assert page.answer() == "The line is halted, so no master may change any slave."
    assert (page.buttons(), page.dots()) == (["Line 1 halted", "Line 2 quiet"], ["halted", "none"])
    assert page.title() == "rackd watch"
    shown.rack.set(1, halted=True)
    until_equal(page.title, "halted · rackd watch")


def test_watch_that_does_not_answer(shown):
    page = shown.open()
    shown.rack.silent = True
    until_equal(page.notices, [["bad", "This page gets no answer, so what is shown is old. Has rackd watch or the rack with --page "
                               "stopped?"]])
    assert page.live() == "no answer"
    assert (page.buttons(), page.dots()) == (["Line 1 no answer", "Line 2 no answer"], ["wrong", "wrong"])
    assert page.title() == "no answer · rackd watch"
    shown.rack.add(refusal(16, 3, 9, NOT_LISTED, "NotListed"))
    shown.rack.silent = False
    until_equal(page.notices, [])
    until_equal(page.sentence, NOT_LISTED)
    assert "no answer" not in " ".join([page.title(), *page.buttons()])


def test_tabs_of_a_page_that_is_paused(shown):
    """While the page is paused, the tabs show the lines as they are now, also when the rack has stopped."""
    page = shown.open()
    shown.tab.click("#pause")
    until_equal(page.live, "paused")
    shown.rack.set(1, halted=True)
    until_equal(page.buttons, ["Line 1 quiet", "Line 2 halted"])
    shown.rack.silent = True
    until_equal(page.buttons, ["Line 1 no answer", "Line 2 no answer"])
    assert page.live() == "no answer"


def test_watch_that_was_started_again(shown):
    """Another run of the watch begins with fewer entries: what the page had of the earlier run is dropped."""
    page = shown.open()
    del shown.rack.lines[0].entries[11:]
    shown.rack.restart()
    shown.follow(refusal(11, 3, 9, NOT_LISTED, "NotListed"))
    until_equal(lambda: page.groups("refusals"),
                [["M3", "slave 9", "NotListed", "1", "11"], ["M1", "slave 12", "NotActive", "1", "10"]])
    assert page.places() == NEWS[2:]


# ---- all lines, and going back

HEADS = ["Line", "Condition", "Slaves held", "In Data_Exch", "Entries", "Refusals", "Last refusal"]


def eight_lines():
    """Returns a rack of eight lines: a large one, one that is halted, one with a wrong row, one without a file, and quiet ones."""
    rack = large_rack(16)
    rack.add(refusal(1), refusal(2, 3, 9, NOT_LISTED, "NotListed"))
    rack.set(1, halted=True)
    rack.set(2, standing="not the policy", row=13)
    rack.set(3, file=None, standing="empty")
    rack.set(4, count=32768)
    rack.set(5, count=70000, capacity=4294967295)
    return rack


def test_table_of_all_lines(shown):
    page = shown.open(eight_lines())
    assert page.is_shown("#matrix") and not page.is_shown("#all-lines")
    shown.tab.click("#all")
    wait_for(lambda: page.is_shown("#all-lines"))
    assert not page.is_shown("#matrix") and not page.is_shown("#stream")
    assert (page.texts("#all-lines thead th"), page.source()) == (HEADS, "rack.toml · 8 lines · texts in audit")
    small = ["1 of 3 by master 1", "1 of 3", "0/s", "0", "none"]
    assert page.rows("all-lines") == [
        ["Line 1", "quiet, 0 % full", "63 of 64 by masters 1 to 16", "63 of 64", "0/s", "2", "master 3 → slave 9: NotListed"],
        ["Line 2", "halted", *small], ["Line 3", "wrong row", *small], ["Line 4", "no file", *small],
        ["Line 5", "quiet, 50 % full", *small], ["Line 6", "quiet, endless", *small], ["Line 7", "quiet, 0 % full", *small],
        ["Line 8", "quiet, 0 % full", *small]]
    shown.rack.set(7, halted=True)
    until_equal(lambda: page.rows("all-lines")[7][1], "halted")
    shown.rack.silent = True
    until_equal(lambda: {row[1] for row in page.rows("all-lines")}, {"no answer"})


def test_line_of_the_table(shown):
    """A row of the table leads to its line, whose button then has the focus."""
    page = shown.open(eight_lines(), fragment="#lines")
    assert page.is_shown("#all-lines")
    page.evaluate("document.querySelector('#all-lines [data-line=\"2\"]').focus()")
    shown.tab.press("Enter")
    wait_for(lambda: page.is_shown("#matrix"))
    assert (page.source(), page.focused()) == ("line-2-1.audit · 0 of 65,536 places used · legal so far", "2")
    assert page.evaluate("document.activeElement.parentNode.id") == "lines"


def test_rack_of_one_line_has_no_table(shown):
    page = shown.open(Rack(large_line(3)), fragment="#lines")
    assert page.is_shown("#matrix") and not page.is_shown("#all-lines") and not page.is_shown("#all")


def test_table_ends_with_its_lines(shown):
    """If another rack with one line answers, its line is shown in place of the table."""
    page = shown.open(eight_lines(), fragment="#lines")
    assert page.is_shown("#all-lines")
    del shown.rack.lines[1:]
    shown.rack.restart()
    wait_for(lambda: page.is_shown("#matrix"))
    assert not page.is_shown("#all") and not page.is_shown("#all-lines")


def test_back(shown):
    """Back and forward go through what was chosen, and what was chosen twice is there once."""
    page = shown.open()
    first, second = "line-1-1.audit · 15", "line-2-1.audit · 1 "
    assert page.source().startswith(first)
    for selector, source in (("#lines button:nth-child(2)", second), ("#lines button:nth-child(2)", second),
                             ("#all", "rack.toml"), ("#lines button:nth-child(1)", first)):
        shown.tab.click(selector)
        wait_for(lambda: page.source().startswith(source))
    for step, source in ((-1, "rack.toml"), (-1, second), (-1, first), (1, second), (2, first)):
        page.evaluate(f"history.go({step})")
        wait_for(lambda: page.source().startswith(source))
        assert page.count("#matrix") == 1
    assert page.evaluate("location.href").startswith(shown.server.url)


def test_address_that_is_changed(shown):
    page = shown.open()
    page.evaluate("location.hash = '#line=2'")
    until_equal(page.cells, SECOND_LINE)
    page.evaluate("location.hash = '#line=77'")
    wait_for(lambda: page.source().startswith("line-1-1.audit"))
