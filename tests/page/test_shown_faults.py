"""The page: the last refusal with its reason, and the tables of refusals and of other faults."""
import re

from page.shown_racks import NEWS, NOT_ACTIVE, NOT_HOLDER, NOT_LISTED, PARAMETERS, WRONG_IDENT, refusal
from page.stand_in import FREE, RUNNING, Line, Rack, change, request, slave, to_all
from support.clients import wait_for
from support.watching import until_equal

RELEASED = "released: 9 (its watchdog of 1000 ms ran out: master 1 sent nothing that restarts it)."


def test_last_refusal(shown):
    page = shown.open()
    until_equal(page.sentence, NOT_HOLDER)
    assert page.heading() == "master 2 → slave 5: Set_Prm refused, NotHolder"
    rows = page.reason()
    assert rows.pop("meaning").startswith("Only the master that holds the slave may")
    wanted = {"entry": "14 of line-1-1.audit", "parameters": PARAMETERS, "reply": "RS, not activated",
              "before it": "entry 5, master 1 → slave 5, Chk_Cfg: good configuration: number 0.",
              "slave 5 now": "Data_Exch master 1 holds it since entry 3"}
    assert {name: rows[name] for name in wanted} == wanted


def test_history_of_a_refusal(shown):
    """What came before a refusal stays as it is when the slave changes later; a later refusal has its own."""
    page = shown.open()
    until_equal(page.sentence, NOT_HOLDER)
    before = page.reason()["before it"]
    shown.follow(request(16, 1, 5, "Set_Prm", "unlocked: slave 5 is released.", changes=[change(5, RUNNING.format(1), FREE)]))
    assert page.places() == [16, *NEWS]
    assert page.reason()["before it"] == before
    shown.follow(refusal(17, 3, 9, NOT_LISTED, "NotListed"))
    assert page.sentence() == NOT_LISTED
    assert page.reason()["before it"] == f"entry 8, operator → line, 100 units of time, 1000 ms: {RELEASED}"


def test_refused_is_what_the_field_says(shown):
    page = shown.open()
    shown.follow(request(16, 3, 6, "RD_Inp", "refused: NotListed. This entry is not marked as refused.", "NotListed",
                         refused=False, fault=False))
    assert page.places() == [16, *NEWS]
    assert page.sentence() == NOT_HOLDER
    shown.follow(request(17, 3, 6, "RD_Inp", "done, and marked as refused.", refused=True, fault=True))
    assert page.sentence() == "done, and marked as refused."


def test_refusal_of_one_slave_of_all(shown):
    page = shown.open()
    silence = "refused in silence: NotActive. Slave 12 is in Wait_Prm, where Global_Control is off."
    shown.follow(to_all(16, 2, "spread over the slaves of master 2:",
                        [(6, "Done", "done: Sync."), (12, "NotActive", silence)], refused=True, fault=True))
    assert page.sentence() == silence
    assert page.heading() == "master 2 → all slaves: Global_Control refused, NotActive"
    assert page.reason()["reply"] == "none (silence)"
    assert page.groups("refusals")[0] == ["M2", "slave 12", "NotActive", "1", "16"]
    assert page.results()[16] == f"slave 12: {silence}"


def test_nothing_is_refused(shown):
    page = shown.open(Rack(Line(1, [1], [slave(5)])))
    assert page.text("#reason") == "No request was refused in the entries on this page."
    assert page.rows("refusals") == [["none"]]
    shown.follow(request(1, 1, 5, "Set_Prm", WRONG_IDENT))
    assert page.sentence() == WRONG_IDENT
    assert page.heading() == "master 1 → slave 5: Set_Prm fault, wrong parameters"


def test_rows_of_refusals(shown):
    page = shown.open()
    assert page.groups("refusals") == [["M2", "slave 5", "NotHolder", "3", "14"], ["M1", "slave 12", "NotActive", "1", "10"]]
    shown.follow(refusal(16), refusal(17, 1, 12, NOT_ACTIVE, "NotActive"))
    assert page.groups("refusals") == [["M1", "slave 12", "NotActive", "2", "17"], ["M2", "slave 5", "NotHolder", "4", "16"]]


def test_when_a_refusal_came(shown):
    """An entry that was there before the page was opened came earlier; of another one it is known when it came."""
    page = shown.open()
    assert [row[5] for row in page.rows("refusals")] == ["earlier", "earlier"]
    shown.follow(refusal(16, 1, 12, NOT_ACTIVE, "NotActive"))
    assert [row[5] == "earlier" for row in page.rows("refusals")] == [False, True]
    assert re.fullmatch(r"now|\d+ s ago", page.rows("refusals")[0][5])


def test_chosen_refusal(shown):
    """A refusal that is chosen stays shown while others come, until the newest one is asked for."""
    page = shown.open()
    shown.tab.click("#refusals tbody tr:nth-child(2) button")
    until_equal(page.sentence, NOT_ACTIVE)
    wanted = {"before it": "no entry on this page changed slave 12",
              "fault before it": f"entry 2, master 2 → slave 12, Set_Prm: {WRONG_IDENT}",
              "slave 12 now": "Wait_Prm nobody holds it, Prm_Fault"}
    rows = page.reason()
    assert {name: rows[name] for name in wanted} == wanted
    shown.follow(refusal(16, 3, 9, NOT_LISTED, "NotListed"))
    assert len(page.groups("refusals")) == 3
    assert page.sentence() == NOT_ACTIVE
    shown.tab.click("#reason button")
    until_equal(page.sentence, NOT_LISTED)


def test_rows_stay_below_the_pointer(shown):
    page = shown.open()
    shown.tab.point("#refusals tbody tr:nth-child(2)")
    shown.follow(refusal(16, 1, 12, NOT_ACTIVE, "NotActive"))
    assert page.groups("refusals") == [["M2", "slave 5", "NotHolder", "3", "14"], ["M1", "slave 12", "NotActive", "2", "16"]]
    shown.tab.point("h1")
    shown.rack.set()
    until_equal(lambda: page.groups("refusals")[0], ["M1", "slave 12", "NotActive", "2", "16"])


def test_other_faults(shown):
    page = shown.open()
    assert page.groups("faults") == [["operator", "slave 9", RELEASED, "1", "8"], ["M2", "slave 12", WRONG_IDENT, "1", "2"]]
    shown.follow(
        to_all(16, 2, "spread over the slaves of master 2:",
               [(6, "NotSelected", "silence: NotSelected. The command is for group 2.")], fault=True),
        request(17, 2, 6, "Data_Exchange", "repeat: FCB as in entry 12, but another telegram: not done.", "Repeat", fault=True))
    assert len(page.groups("faults")) == 4
    shown.tab.click("#faults tbody tr:nth-child(2) button")
    until_equal(page.heading, "master 2 → all slaves: Global_Control fault, none selected")
    shown.tab.click("#faults tbody tr:nth-child(1) button")
    until_equal(page.heading, "master 2 → slave 6: Data_Exchange fault, Repeat (other)")
    shown.tab.click("#faults tbody tr:nth-child(3) button")
    until_equal(page.sentence, RELEASED)
    assert page.reason()["change"] == "slave 9: Wait_Cfg, held by master 1 → Wait_Prm, held by nobody"


def test_surprising_answer(shown):
    """What was done, though hardly meant so, is a fault with a name of its own."""
    page = shown.open()
    shown.follow(request(16, 2, 12, "Set_Prm", "done: min TSDR is 20. Lock_Req is missing: nobody holds the slave.",
                         fault=True, surprising=True))
    assert len(page.groups("faults")) == 3
    shown.tab.click("#faults tbody tr:nth-child(1) button")
    until_equal(page.heading, "master 2 → slave 12: Set_Prm fault, surprising")


def test_faults_are_in_view(shown):
    """Two masters at a slave, a watchdog that ran out and a wrong ident are in view without a click, at 1,440 pixels."""
    shown.tab.look(1440, 900, "light")
    page = shown.open()
    for selector, sentence in (("#sentence", NOT_HOLDER), ("#faults tbody tr:nth-child(1)", RELEASED),
                               ("#faults tbody tr:nth-child(2)", WRONG_IDENT)):
        wait_for(lambda: sentence in (page.text(selector) or ""))
        assert page.evaluate(f"document.querySelector('{selector}').getBoundingClientRect().bottom") <= 900, selector
