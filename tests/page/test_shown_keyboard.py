"""The page: what is announced to a screen reader, and what the keyboard does."""
from page.shown_racks import NOT_ACTIVE, NOT_HOLDER, NOT_LISTED, OVERVIEW, refusal
from support.clients import wait_for
from support.processes import PATIENCE
from support.watching import until_equal

# Milliseconds between two announcements at the least.
ANNOUNCE_PAUSE = 3000
COUNT_ANNOUNCEMENTS = """window.announcements = 0; new MutationObserver(() => { window.announcements += 1; })
    .observe(document.querySelector("#announce"), { childList: true, characterData: true, subtree: true })"""
OUTLINE = "(style => [style.outlineStyle, parseFloat(style.outlineWidth)])(getComputedStyle(document.activeElement))"


def test_announced_refusals(shown):
    """A refusal is announced, the same one is not announced again also after the pause, and another one is."""
    page = shown.open()
    until_equal(page.announced, f"Refused: master 2 → slave 5, Set_Prm. {NOT_HOLDER}")
    assert page.evaluate("document.querySelector('#announce').ariaLive") == "polite"
    page.evaluate(COUNT_ANNOUNCEMENTS)
    begun = page.evaluate("performance.now()")
    shown.follow(refusal(16), refusal(17))
    assert shown.tab.wait(f"performance.now() > {begun + ANNOUNCE_PAUSE}", PATIENCE)
    shown.follow(refusal(18))
    assert page.evaluate("window.announcements") == 0
    shown.follow(refusal(19, 3, 9, NOT_LISTED, "NotListed"))
    assert page.announced() == f"Refused: master 3 → slave 9, Set_Prm. {NOT_LISTED}"
    assert page.evaluate("window.announcements") == 1


def test_tab_reaches_everything(shown):
    """Tab reaches all that can be used, each with a visible outline, and Enter opens an entry."""
    page, reached = shown.open(), []
    for _ in range(40):
        shown.tab.press("Tab")
        reached.append(page.focused())
        style, width = page.evaluate(OUTLINE)
        assert style != "none" and width >= 2, f"the focus at {reached[-1]} is not visible"
        if reached[-1].startswith("12 "):
            break
    wanted = ["1", "2", "pause", "5 1", "true 2 slave 5 NotHolder", "true 1 slave 12 NotActive", "f-kind", "f-master", "f-slave",
              "f-text", "f-clear", "stream"]
    assert [each for each in wanted if each not in reached] == []
    assert any(each.startswith("14 master 2") for each in reached)
    shown.tab.press("Enter")
    assert shown.tab.wait("document.querySelector('#stream [open] dl') !== null", PATIENCE)


def test_keys_in_the_matrix(shown):
    page = shown.open()
    page.evaluate("document.querySelector('[data-cell=\"5 1\"]').focus()")
    for key, cell in (("ArrowRight", "5 2"), ("ArrowDown", "6 2"), ("ArrowLeft", "6 1"), ("ArrowLeft", "6 1"), ("ArrowUp", "5 1"),
                      ("ArrowUp", "5 1")):
        shown.tab.press(key)
        assert (key, page.focused()) == (key, cell)
    shown.tab.press("Enter")
    wait_for(lambda: page.answer().startswith("Master 1 holds slave 5 since"))
    assert page.evaluate("document.activeElement.getAttribute('aria-describedby')") == "answer"
    shown.tab.press("Escape")
    until_equal(page.answer, OVERVIEW)


def test_focus_stays(shown):
    """What has the focus keeps it while entries come and rows move."""
    page = shown.open()
    page.evaluate("document.querySelector('#refusals tbody tr:nth-child(2) button').focus()")
    shown.follow(refusal(16, 3, 9, NOT_LISTED, "NotListed"), refusal(17, 1, 12, NOT_ACTIVE, "NotActive"))
    assert len(page.groups("refusals")) == 3
    assert page.focused() == "true 1 slave 12 NotActive"
    page.evaluate("document.querySelector('[data-cell=\"6 2\"]').focus()")
    for place in 18, 19:
        shown.follow(refusal(place))
        assert page.focused() == "6 2"
