"""The page: its widths, contrast, colours, headings and names."""
import pytest

from page.shown_racks import refusal
from page.stand_in import Line, Rack, held, request, sample, slave, way

WIDTHS = (420, 640, 800, 1080, 1600)


def crowded():
    """Returns a rack of long names, many slaves and masters, and long octets."""
    masters = list(range(1, 17))
    slaves = [held(address, masters[address % 16], address, inputs="5a" * 244, shown="5a" * 244, outputs="a5" * 244,
                   latest="00" * 244, group=255, busy=[None, 56, 57, 58, 59, 60, 61, 62], lockers=masters,
                   readers=masters, diagnosis={"ext_diag": True, "octets": "ff" * 238, "stat_diag": True})
              for address in range(20, 84)]
    line = Line(1, masters, slaves)
    for master in line.fields["masters"]:
        master["ways"] = [way(name, 4294967296, True) for name in ("NotActive", "NotHolder", "Repeat (other)")]
    rack = Rack(line, *(Line(number, [1], [slave(5)]) for number in range(2, 9)), folder="folder" * 40)
    rack.set(standing="not the policy", row=4294967295)
    rack.set(1, file=None)
    slots = "; ".join(f"slot {slot} is 21, the slave has 11" for slot in range(20))
    rack.add(*(refusal(place, place % 16 + 1, place % 64 + 20) for place in range(1, 200)),
             request(200, 1, 20, "Chk_Cfg", f"wrong configuration: {slots}. Released."))
    return rack


# The crowded rack takes the browser long.
RACKS = [pytest.param(sample, id="sample"), pytest.param(crowded, id="crowded", marks=pytest.mark.slow)]


@pytest.mark.parametrize("rack", RACKS)
@pytest.mark.parametrize("width", WIDTHS)
def test_nothing_is_too_wide(shown, rack, width):
    shown.tab.look(width, 900, "light")
    page = shown.open(rack())
    page.fields(page.places()[0])
    assert page.overflows() == 0
    shown.tab.click("#lines button:nth-child(2)")
    assert page.overflows() == 0


@pytest.mark.parametrize("rack", RACKS)
@pytest.mark.parametrize("scheme", ["light", "dark"])
def test_contrast(shown, rack, scheme):
    shown.tab.look(1440, 900, scheme)
    made = rack()
    made.set(1, halted=True)
    page = shown.open(made)
    shown.tab.click("[data-cell]")
    page.fields(page.places()[0])
    assert page.faint_texts() == []


@pytest.mark.parametrize("scheme, background", [("light", "rgb(246, 247, 249)"), ("dark", "rgb(17, 21, 27)")])
def test_light_and_dark(shown, scheme, background):
    shown.tab.look(1440, 900, scheme)
    assert shown.open().evaluate("getComputedStyle(document.body).backgroundColor") == background


def test_heads_and_names(shown):
    page = shown.open()
    assert page.unheaded() == []
    assert page.text("h1") == "rackd watch"
