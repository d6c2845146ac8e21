"""The page: the matrix of slaves and masters, and the tables of slaves and of masters."""
import pytest

from page.shown_racks import OVERVIEW, large_line
from page.stand_in import Line, Rack, held, slave
from support.clients import wait_for
from support.watching import until_equal

# The words of the cells of the sample, by slave and master.
CELLS = {(5, 1): "holds", (5, 2): "–", (5, 3): "–", (6, 1): "–", (6, 2): "holds", (6, 3): "–",
         (9, 1): "may lock", (9, 2): "not listed", (9, 3): "not listed ⌀", (12, 1): "not listed",
         (12, 2): "may lock", (12, 3): "may lock",
         (20, 1): "not listed ⌀", (20, 2): "not listed ⌀", (20, 3): "not listed ⌀"}
SENTENCES = {
    (5, 1): "Master 1 holds slave 5 since entry 3: no other master may change its outputs, parameters and "
            "configuration. Its watchdog has 900 ms of 1,000 ms left. It may read its inputs and outputs.",
    (5, 2): "Master 2 may not change slave 5: master 1 holds it since entry 3. A Set_Prm of master 2 is refused "
            "by NotHolder. It may read its inputs and outputs.",
    (9, 1): "Nobody holds slave 9. Master 1 may lock it with Set_Prm. It may read its inputs and outputs once it "
            "is in Data_Exch.",
    (9, 3): "Master 3 may not lock slave 9: only master 1 may. A Set_Prm of master 3 is refused by NotListed. "
            "It may not read its inputs and outputs: only masters 1, 2 may.",
    (20, 1): "Master 1 may not lock slave 20: its list of lockers is empty. A Set_Prm of master 1 is refused by "
             "NotListed. It may not read its inputs and outputs: its list of readers is empty.",
}
# Stores each list of octets that are marked as changed, as the page draws one after another.
RECORD_MARKS = """window.marked = []; new MutationObserver(() => {
    const marks = [...document.querySelectorAll("#slaves mark")].map(node => node.innerText.trim());
    if (JSON.stringify(marks) !== JSON.stringify(window.marked.at(-1) ?? [])) window.marked.push(marks);
}).observe(document.querySelector("#slaves"), { childList: true, characterData: true, subtree: true })"""


def test_words_of_the_matrix(shown):
    page = shown.open()
    assert page.cells() == CELLS
    assert page.label(5, 2) == "master 2, slave 5: master 1 holds it"
    assert page.label(9, 3) == "master 3, slave 9: not listed, may not read it"
    assert page.answer() == OVERVIEW
    shown.rack.set_slave(5, state="Wait_Prm", holder=None, since=0, left=None, full=None)
    until_equal(page.cells, {**CELLS, (5, 1): "may lock", (5, 2): "may lock", (5, 3): "may lock"})


def test_sentences_of_cells(shown):
    """A click on a cell shows its sentence, and a second click the sentence about all slaves again."""
    page = shown.open()
    for (slave, master), sentence in SENTENCES.items():
        shown.tab.click(f"[data-cell='{slave} {master}']")
        until_equal(page.answer, sentence)
    shown.tab.click("[data-cell='20 1']")
    until_equal(page.answer, OVERVIEW)


def test_rows_of_slaves(shown):
    rows = shown.open().slaves()
    wanted = {
        5: {"state": "Data_Exch", "holder": "M1 since entry 3", "watchdog": "900 of 1,000 ms", "outputs": "a0 01 latest a0 02",
            "modes": "Sync groups 1, 3 has Sync, has Freeze, min TSDR 11"},
        6: {"inputs": "01 02 device 03 04", "diagnosis": "Ext_Diag unread 04 07 00 ff",
            "modes": "Freeze Data_Exchange busy Slave_Diag busy has Freeze, min TSDR 11"},
        9: {"holder": "nobody released at entry 8: its watchdog ran out lockers 1 · readers 1, 2", "watchdog": "off"},
        20: {"outputs": "none"},
    }
    assert {slave: {name: rows[slave][name] for name in names} for slave, names in wanted.items()} == wanted


def test_bars_of_watchdogs(shown):
    page = shown.open()
    assert page.evaluate("[...document.querySelectorAll('#slaves meter')].map(node => node.value / node.max)") == [0.9, 0.15]


def test_changed_octets_are_marked(shown):
    """An octet that changed is marked for a while, and others aren't."""
    page = shown.open()
    assert page.marks() == []
    page.evaluate(RECORD_MARKS)
    shown.rack.set_slave(5, inputs="0103", shown="0103")
    until_equal(lambda: page.evaluate("window.marked"), [["03"], []])
    assert page.slaves()[5]["inputs"] == "01 03"
    assert page.marks() == []


def test_rows_of_masters(shown):
    assert shown.open().rows("masters") == [
        ["M1", "slave 5 ✕ NotActive 2 Done 4,916", "4,918", "2"],
        ["M2", "slave 6 ✕ NotHolder 3 ✕ wrong Set_Prm 1 Done 1,000", "1,004", "4"],
        ["M3", "no slave", "0", "0"],
        ["others", "no slave ✕ NoMaster 1", "1", "1"],
    ]


# ---- the column of holders, and masters without a column

ALL_MASTERS = [f"M{master}" for master in range(1, 17)]


def test_column_of_holders(shown):
    page = shown.open()
    assert page.columns() == ["Slave", "Held by", "State", "M1", "M2", "M3"]
    assert [row[:3] for row in page.rows("matrix")] == [
        ["5", "M1", "Data_Exch"], ["6", "M2", "Data_Exch"], ["9", "nobody", "Wait_Prm"], ["12", "nobody", "Wait_Prm"],
        ["20", "nobody", "Wait_Prm"]]
    shown.rack.set_slave(5, state="Wait_Prm", holder=None, since=0, left=None, full=None)
    until_equal(lambda: page.rows("matrix")[0][:3], ["5", "nobody", "Wait_Prm"])


@pytest.mark.parametrize("holding, shown_masters", [(16, ALL_MASTERS), (3, ALL_MASTERS[:3]), (0, [])])
def test_masters_that_hold_nothing_are_folded(shown, holding, shown_masters):
    page = shown.open(Rack(large_line(holding)))
    assert page.columns()[3:] == shown_masters
    assert page.fold() == ("" if holding == 16 else f"{16 - holding} of 16 masters hold no slave, and have no column here. "
                           "Show all masters")
    if holding < 16:
        shown.tab.click("#fold button")
        until_equal(page.columns, ["Slave", "Held by", "State", *ALL_MASTERS])
        assert page.fold() == "Hide masters that hold no slave"
        assert len(page.cells()) == 16 * 64
        shown.tab.click("#fold button")
        until_equal(lambda: page.columns()[3:], shown_masters)


def test_four_masters_are_never_folded(shown):
    page = shown.open(Rack(Line(1, [1, 2, 3, 4], [slave(5)])))
    assert (page.columns()[3:], page.fold()) == (["M1", "M2", "M3", "M4"], "")


def test_master_that_locks_gets_a_column(shown):
    page = shown.open(Rack(large_line(3)))
    shown.rack.set_slave(83, state="Data_Exch", holder=7, since=99, left=90, full=100)
    until_equal(lambda: page.columns()[3:], ["M1", "M2", "M3", "M7"])
    shown.rack.set_slave(83, state="Wait_Prm", holder=None, since=0, left=None, full=None)
    until_equal(lambda: page.columns()[3:], ["M1", "M2", "M3"])


def test_chosen_cell_keeps_its_column(shown):
    """A column is not folded away while its cell is chosen, or has the focus."""
    page = shown.open(Rack(large_line(3)))
    shown.tab.click("#fold button")
    wait_for(lambda: "M9" in page.columns())
    shown.tab.click("[data-cell='20 9']")
    until_equal(page.answer, "Master 9 may not change slave 20: master 1 holds it since entry 1. A Set_Prm of master 9 is refused by "
                "NotHolder. It may read its inputs and outputs.")
    page.evaluate("document.querySelector('[data-cell=\"21 12\"]').focus()")
    page.evaluate("document.querySelector('#fold button').click()")
    until_equal(lambda: page.columns()[3:], ["M1", "M2", "M3", "M9", "M12"])
    assert page.focused() == "21 12"


@pytest.mark.parametrize("slaves, sentence", [
    pytest.param([held(5, 1, 3)], "1 of 1 slaves is held by master 1.", id="one"),
    pytest.param([slave(5), slave(6), slave(7), slave(9)],
                 "0 of 4 slaves are held; nobody holds slaves 5 to 7, 9, which every master may lock.", id="none"),
    pytest.param([slave(5, lockers=[10, 9, 11]), slave(6, lockers=[11, 9])],
                 "0 of 2 slaves are held; nobody holds slave 5, which masters 9 to 11 may lock; nobody holds slave 6, which "
                 "masters 9, 11 may lock.", id="lists"),
])
def test_sentence_about_all_slaves(shown, slaves, sentence):
    assert shown.open(Rack(Line(1, [1, 9, 10, 11], slaves))).answer() == sentence


# ---- the grid of 16 masters and 64 slaves

# How far the first two heads of the matrix, and all heads, are from the left of the table's view, and the width of the view.
COLUMNS_IN_VIEW = """(() => {
    const view = document.querySelector("#who .scroll").getBoundingClientRect();
    const boxes = [...document.querySelectorAll("#matrix thead th")].map(node => node.getBoundingClientRect());
    return [boxes.map(box => [Math.round(box.left - view.left), Math.round(box.right - view.left)]), Math.round(view.width)];
})()"""


def test_grid_of_16_masters_at_1280(shown):
    """All 16 masters are in view without scrolling to the side."""
    shown.tab.look(1280, 900, "light")
    page = shown.open(Rack(large_line(16)))
    boxes, width = page.evaluate(COLUMNS_IN_VIEW)
    assert len(boxes) == 19
    assert boxes[-1][1] <= width
    assert page.overflows() == 0


def test_grid_of_16_masters_at_390(shown):
    """Slave and holder stay in view when the table is scrolled to the last master, and the page is not too wide."""
    shown.tab.look(390, 844, "light")
    page = shown.open(Rack(large_line(16)))
    boxes, width = page.evaluate(COLUMNS_IN_VIEW)
    assert boxes[3][1] <= width, "the first master is not in view"
    page.evaluate("document.querySelector('#who .scroll').scrollLeft = 10000")
    scrolled, _ = page.evaluate(COLUMNS_IN_VIEW)
    assert [scrolled[0], scrolled[1][0] - scrolled[0][0]] == [boxes[0], 44]
    assert scrolled[-1][1] <= width
    page.evaluate("document.querySelector('#who .scroll').scrollTop = 10000")
    last = page.evaluate("""(() => { const view = document.querySelector("#who .scroll").getBoundingClientRect();
        return document.querySelector("#matrix tbody tr:last-child").getBoundingClientRect().bottom - view.bottom; })()""")
    assert last <= 0
    assert page.overflows() == 0


def test_head_of_the_page_at_390_scrolls_away(shown):
    """With eight lines the head of the page would take a third of the height."""
    shown.tab.look(390, 844, "light")
    page = shown.open()
    page.evaluate("window.scrollTo(0, 1000)")
    assert page.evaluate("document.querySelector('header').getBoundingClientRect().bottom") < 0
