"""The page can be read and used by everybody: names, structure, contrast, sizes, and all of it by the keyboard."""
import shutil

import pytest

from page.accessibility import faults, walk
from page.shown_racks import NEWS, NOT_ACTIVE, ShownRack, large_line, large_rack, refusal
from page.stand_in import Rack, StandIn, operation, sample
from support.clients import wait_for
from support.processes import PATIENCE
from support.watching import until_equal


def troubled():
    """Returns the sample with a second line that has halted."""
    rack = sample()
    rack.set(1, halted=True)
    return rack


def large():
    """Returns a rack of eight lines; of the first one, three of 16 masters hold slaves, and 13 are folded away."""
    rack = large_rack(3)
    rack.add(*(refusal(place, place % 16 + 1, place % 64 + 20) for place in range(1, 40)))
    rack.set(1, halted=True)
    rack.set(2, file=None)
    rack.set(3, standing="not the policy", row=13)
    return rack


def unfold(shown):
    shown.tab.click("#fold button")
    wait_for(lambda: "M16" in shown.page.columns())


def choose_and_open(shown):
    """Chooses a cell and a group, and opens an entry."""
    shown.tab.click("[data-cell='6 1']")
    shown.tab.click("#refusals tbody tr:nth-child(2) button")
    until_equal(shown.page.sentence, NOT_ACTIVE)
    shown.page.fields(14)
    assert shown.tab.wait("document.querySelector('#shown').textContent !== ''", PATIENCE)


def lose(shown):
    shown.rack.silent = True
    wait_for(lambda: shown.page.notices() != [])


# What is shown: a rack, the address of the page, and what is done before it is checked.
VIEWS = [
    pytest.param(troubled, "", None, id="line"),
    pytest.param(troubled, "", choose_and_open, id="chosen"),
    pytest.param(troubled, "#line=2", None, id="halted"),
    pytest.param(large, "#lines", None, id="all-lines"),
    pytest.param(large, "#line=3", None, id="no-file"),
    pytest.param(large, "#line=4", lose, id="no-answer"),
    pytest.param(large, "", None, id="folded"),
    pytest.param(large, "", unfold, id="unfolded", marks=pytest.mark.slow),
]


@pytest.mark.parametrize("rack, address, act", VIEWS)
@pytest.mark.parametrize("width, scheme", [(1280, "light"), (390, "dark")])
def test_rules(shown, rack, address, act, width, scheme):
    shown.tab.look(width, 900, scheme)
    shown.open(rack(), address)
    if act is not None:
        act(shown)
    assert faults(shown.tab) == []


@pytest.mark.parametrize("rack, address", [(sample, ""), (large, "#lines"), (large, "#line=1")], ids=["line", "all-lines", "folded"])
@pytest.mark.parametrize("scheme", ["light", "dark"])
def test_tab_reaches_each_control(shown, rack, address, scheme):
    """Each control is reached by Tab, and the focus is seen there."""
    shown.tab.look(1280, 900, scheme)
    shown.open(rack(), address)
    assert walk(shown.tab) == ([], [])


# ---- each control is used by keys


def focus(shown, selector):
    shown.page.evaluate(f"document.querySelector({selector!r}).focus()")


@pytest.mark.parametrize("key", ["Enter", " "])
def test_buttons_by_keys(shown, key):
    page = shown.open()
    for selector, is_done in (("#lines button:nth-child(2)", lambda: page.source().startswith("line-2-1.audit")),
                              ("#all", lambda: page.is_shown("#all-lines")),
                              ("#all-lines [data-line='1']", lambda: page.source().startswith("line-1-1.audit")),
                              ("#pause", lambda: page.text("#pause") == "Continue"),
                              ("#pause", lambda: page.text("#pause") == "Pause"),
                              ("#refusals tbody tr:nth-child(2) button", lambda: page.sentence() == NOT_ACTIVE),
                              ("#reason button", lambda: page.sentence() != NOT_ACTIVE),
                              ("[data-cell='6 1']", lambda: page.answer().startswith("Master 1 may not change slave 6")),
                              ("#stream summary", lambda: page.count("#stream [open]") == 1)):
        focus(shown, selector)
        shown.tab.press(key)
        wait_for(is_done)


def test_fold_by_keys(shown):
    """The button that shows masters keeps the focus, and says whether they are shown."""
    page = shown.open(Rack(large_line(3)))
    states = []
    focus(shown, "#fold button")
    for count in (16, 3):
        shown.tab.press("Enter")
        until_equal(lambda: len(page.columns()) - 3, count)
        states.append(page.evaluate("document.activeElement.dataset.fold + document.activeElement.ariaExpanded"))
    assert states == ["true", "false"]


def test_filters_by_keys(shown):
    page = shown.open()
    focus(shown, "#f-text")
    shown.tab.write("ident 80d2")
    until_equal(page.places, [2])
    focus(shown, "#f-clear")
    shown.tab.press("Enter")
    until_equal(page.places, NEWS)
    focus(shown, "#f-kind")
    shown.tab.press("ArrowDown")
    until_equal(page.places, list(range(15, 0, -1)))


def test_newest_by_keys(shown):
    page = shown.open()
    page.fields(14)
    shown.follow(operation(16, "halt", "halted; released: 5, 6.", fault=True))
    focus(shown, "#newest")
    shown.tab.press("Enter")
    until_equal(page.places, [16, *NEWS])


def test_each_cell_is_reached_by_arrows(shown):
    """From the cell that Tab reaches, the arrow keys reach all others."""
    page = shown.open()
    focus(shown, "[data-cell='5 1']")
    reached = [page.focused()]
    for row in range(5):
        for _ in range(2):
            shown.tab.press("ArrowRight" if row % 2 == 0 else "ArrowLeft")
            reached.append(page.focused())
        if row < 4:
            shown.tab.press("ArrowDown")
            reached.append(page.focused())
    assert sorted(reached) == sorted(f"{slave} {master}" for slave, master in page.cells())


# ---- the check finds what is wrong

# A file of the page, two texts of which the second replaces the first, and the rule that it breaks.
WRONG_PAGES = [
    ("page.html", '<html lang="en">', "<html>", "language"),
    ("page.js", '+ "rackd watch";', ";", "title"),
    ("page.html", "initial-scale=1", "initial-scale=1, maximum-scale=1", "zoom"),
    ("page.html", "<h1>rackd <span>watch</span></h1>", "<p>rackd</p>", "one h1"),
    ("page.html", '<h2 id="who-title">Who may change which slave now</h2>', '<h4 id="who-title">Who</h4>', "order of headings"),
    ("page.html", ' aria-label="Lines of the rack"', "", "landmarks"),
    ("page.js", 'make("th", { scope: "row" }, String(slave.address)),\n      make("td", {}, masterChip',
     'make("td", {}, String(slave.address)),\n      make("td", {}, masterChip', "heads of tables"),
    ("page.html", '<label>Text\n', "<label>\n", "names"),
    ("page.html", 'id="stream" tabindex="0" role="region"', 'id="stream" tabindex="0"', "roles"),
    ("page.html", '<button id="pause"', '<button id="pause" tabindex="3"', "order of Tab"),
    ("page.html", '<button id="pause"', '<button id="pause" aria-hidden="true"', "hidden controls"),
    ("page.js", '"aria-pressed": String(number === state.line)', '"aria-pressed": number', "states"),
    ("page.html", 'aria-labelledby="faults-title"', 'aria-labelledby="fault-title"', "references"),
    ("page.html", 'id="faults-title"', 'id="refusals-title"', "ids"),
    ("page.html", ' tabindex="0" role="region" aria-labelledby="slaves-title"', "", "scrolling by keys"),
    ("page.css", "padding: 3px 10px; border: 1px solid var(--field)",
     "padding: 0; width: 9px; overflow: hidden; border: 1px solid var(--field)", "size of targets"),
    ("page.css", "--soft: #566070", "--soft: #868f9c", "contrast of texts"),
    ("page.css", "::placeholder { color: var(--soft)", "::placeholder { color: var(--edge)", "contrast of texts"),
    ("page.css", "--field: #7c8899", "--field: #d9dee5", "contrast of edges"),
]
# Edits after which the keyboard does not reach a control, or the focus isn't seen.
WRONG_FOCUS = [
    pytest.param("page.css", ":focus-visible { outline: 2px solid var(--link)", ":focus-visible { outline: 0", id="no-outline"),
    pytest.param("page.css", ":focus-visible { outline: 2px solid var(--link)", ":focus-visible { outline: 2px solid var(--edge)",
                 id="faint-outline"),
    pytest.param("page.js", 'type: "button", class: "text", "aria-pressed"', 'type: "button", tabindex: "-1", "aria-pressed"',
                 id="no-tab"),
]


@pytest.fixture
def shown_with(browser, page_files, tmp_path):
    """A function that shows the sample in a narrow page, of which one file has another text."""
    tab, servers = browser.page(390, 900), []

    def show(name, old, new):
        folder = shutil.copytree(page_files, tmp_path / "page")
        text = (folder / name).read_text(encoding="utf-8")
        assert text.count(old) == 1
        (folder / name).write_text(text.replace(old, new), encoding="utf-8")
        servers.append(StandIn(folder).__enter__())
        shown = ShownRack(servers[0], tab)
        shown.open()
        return shown

    yield show
    for server in servers:
        server.__exit__()
    tab.close()


@pytest.mark.parametrize("name, old, new, rule", WRONG_PAGES, ids=[f"{row[3].replace(' ', '-')}-{at}" for at, row in
                                                                   enumerate(WRONG_PAGES)])
def test_wrong_page_is_found(shown_with, name, old, new, rule):
    found = faults(shown_with(name, old, new).tab)
    assert rule in {fault.split(":")[0] for fault in found}


@pytest.mark.parametrize("name, old, new", WRONG_FOCUS)
def test_wrong_focus_is_found(shown_with, name, old, new):
    assert walk(shown_with(name, old, new).tab) != ([], [])
