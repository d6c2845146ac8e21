"""Reads the page of `rackd watch` in a browser, and acts on it as a user does, whatever serves it."""
import json

from support.processes import PATIENCE

# The text of a node as a reader sees it, in one row.
TEXT = "(node => node.innerText.replace(/\\s+/g, ' ').trim())"


class WatchPage:
    """The page of `rackd watch`, read in one tab of a browser."""

    def __init__(self, tab):
        self.tab = tab

    def open(self, url):
        """Opens the page, and waits until it shows a line."""
        self.tab.open(url)
        assert self.tab.wait("document.querySelector('#lines button') !== null", PATIENCE), "no line is shown"

    def evaluate(self, expression):
        return self.tab.evaluate(expression)

    def text(self, selector):
        """Returns the text of an element; None if it is not there."""
        return self.evaluate(f"(node => node && {TEXT}(node))(document.querySelector({json.dumps(selector)}))")

    def texts(self, selector):
        return self.evaluate(f"[...document.querySelectorAll({json.dumps(selector)})].map({TEXT})")

    def count(self, selector):
        return self.evaluate(f"document.querySelectorAll({json.dumps(selector)}).length")

    def rows(self, table):
        """Returns the rows of a table, each a list of the texts of its cells."""
        return self.evaluate(
            f"[...document.querySelectorAll('#{table} tbody tr')].map(row => [...row.cells].map({TEXT}))")

    # The head and the banner

    def buttons(self):
        return self.texts("#lines button")

    def source(self):
        return self.text("#source")

    def title(self):
        return self.evaluate("document.title")

    def dots(self):
        """Returns the class of the dot of each line."""
        return self.evaluate("[...document.querySelectorAll('#lines i')].map(node => node.className)")

    def is_shown(self, selector):
        """Returns whether an element has a place on the page."""
        return self.evaluate(f"document.querySelector({json.dumps(selector)}).getClientRects().length > 0")

    def live(self):
        return self.text("#live")

    def notices(self):
        """Returns the notices of the banner, each with its class."""
        return self.evaluate(f"[...document.querySelectorAll('#banner p')].map(node => [node.className, {TEXT}(node)])")

    # The matrix

    def columns(self):
        """Returns the heads of the columns of the matrix."""
        return self.texts("#matrix thead th")

    def fold(self):
        """Returns what is said about masters without a column, with the word of the button."""
        return self.text("#fold")

    def cells(self):
        """Returns the words of the matrix, by slave and master."""
        cells = self.evaluate(
            f"[...document.querySelectorAll('[data-cell]')].map(node => [node.dataset.cell, {TEXT}(node)])")
        return {tuple(map(int, name.split())): word for name, word in cells}

    def label(self, slave, master):
        """Returns what a screen reader says of a cell."""
        return self.evaluate(f"document.querySelector('[data-cell=\"{slave} {master}\"]').getAttribute('aria-label')")

    def answer(self):
        return self.text("#answer")

    # Refusals and other faults

    def sentence(self):
        return self.text("#sentence")

    def heading(self):
        return self.text("#reason h3")

    def reason(self):
        """Returns the rows below the sentence, by their names."""
        return dict(self.evaluate(
            f"[...document.querySelectorAll('#reason dt')].map(node => [{TEXT}(node), {TEXT}(node.nextSibling)])"))

    def groups(self, table):
        """Returns master, target, rule, number and last entry of each group of faults."""
        return [row[:5] for row in self.rows(table)]

    def announced(self):
        return self.text("#announce")

    # Slaves and masters

    def slaves(self):
        """Returns the row of each slave, by its address."""
        names = ["ident", "state", "holder", "watchdog", "inputs", "outputs", "diagnosis", "modes"]
        return {int(row[0]): dict(zip(names, row[1:])) for row in self.rows("slaves")}

    def marks(self):
        """Returns the octets of slaves that are marked as changed."""
        return self.texts("#slaves mark")

    # Entries

    def places(self):
        """Returns the numbers of the entries that are listed."""
        return list(map(int, self.texts("#stream .place")))

    def results(self):
        """Returns the results of the entries that are listed, by their numbers."""
        return dict(zip(self.places(), self.texts("#stream .result")))

    def caption(self):
        return self.text("#shown span")

    def filter(self, kind="news", master="", slave="", text=""):
        """Chooses filters."""
        self.tab.choose("#f-kind", kind)
        self.tab.choose("#f-master", str(master))
        self.tab.choose("#f-slave", str(slave))
        self.tab.choose("#f-text", text)

    def entry(self, place):
        """Returns a selector of a listed entry."""
        self.evaluate(f"""[...document.querySelectorAll("#stream details")].forEach(node =>
            node.toggleAttribute("data-here", node.querySelector(".place").innerText === "{place}"))""")
        return "#stream [data-here]"

    def fields(self, place):
        """Opens an entry, and returns its rows, by their names."""
        entry = self.entry(place)
        self.tab.click(f"{entry} summary")
        assert self.tab.wait(f"document.querySelector('{entry} dl') !== null", PATIENCE), "an entry opens without rows"
        return dict(self.evaluate(
            f"[...document.querySelectorAll('{entry} dt')].map(node => [{TEXT}(node), {TEXT}(node.nextSibling)])"))

    # What holds for the whole page

    def focused(self):
        """Returns what has the focus: its id, or the name of its cell, its group, its line, or its text."""
        return self.evaluate(f"""(node => node.id || node.dataset.cell || node.closest("[data-group]")?.dataset.group
            || node.dataset.line || {TEXT}(node).slice(0, 60) || node.nodeName)(document.activeElement)""")

    def overflows(self):
        """Returns by how many pixels the page is wider than its window."""
        return self.evaluate("document.documentElement.scrollWidth - document.documentElement.clientWidth")

    def faint_texts(self):
        """Returns texts whose contrast is below 4.5:1."""
        return self.evaluate(FAINT_TEXTS)

    def unheaded(self):
        """Returns what lacks a heading, a head of a table, or a name."""
        return self.evaluate(UNHEADED)


# Each text with its colour and its background, of which the contrast is too small.
FAINT_TEXTS = """(() => {
  const channel = value => value <= 0.03928 ? value / 12.92 : ((value + 0.055) / 1.055) ** 2.4;
  const light = ([red, green, blue]) => 0.2126 * channel(red / 255) + 0.7152 * channel(green / 255)
    + 0.0722 * channel(blue / 255);
  const parts = colour => colour.match(/[\\d.]+/g).map(Number);
  const backOf = node => {
    for (let at = node; at !== null; at = at.parentElement) {
      const colour = parts(getComputedStyle(at).backgroundColor);
      if (colour.length === 3 || colour[3] > 0) return colour;
    }
    return [255, 255, 255];
  };
  const faint = [];
  for (const node of document.body.querySelectorAll("*")) {
    const hasText = [...node.childNodes].some(one => one.nodeType === Node.TEXT_NODE && one.data.trim() !== "");
    if (!hasText || node.getClientRects().length === 0 || node.closest(".unseen, option")) continue;
    const fore = getComputedStyle(node).color, back = backOf(node);
    const [one, other] = [light(parts(fore)), light(back)].sort((a, b) => b - a);
    const contrast = (one + 0.05) / (other + 0.05);
    if (contrast < 4.5) faint.push(`${node.textContent.slice(0, 30)}: ${fore} on ${back} (${contrast.toFixed(2)})`);
  }
  return faint;
})()"""

UNHEADED = """(() => {
  const all = selector => [...document.querySelectorAll(selector)], wrong = [];
  if (all("h1").length !== 1) wrong.push("h1");
  if (document.documentElement.lang === "") wrong.push("lang");
  for (const section of all("section")) if (!section.querySelector("h2")) wrong.push(`section ${section.id}`);
  for (const cell of all("thead th")) if (cell.scope !== "col") wrong.push(`column ${cell.innerText}`);
  for (const table of all("table"))
    for (const row of table.querySelectorAll("thead ~ tbody tr"))
      if (row.cells[0].nodeName !== "TH" || row.cells[0].scope !== "row") wrong.push(`row of ${table.id}`);
  for (const node of all("button"))
    if (!node.innerText.trim() && !node.getAttribute("aria-label") && !node.hidden) wrong.push("button");
  for (const node of all("input, select")) if (node.labels.length === 0) wrong.push(`field ${node.id}`);
  const ids = all("[id]").map(node => node.id);
  if (new Set(ids).size !== ids.length) wrong.push("an id twice");
  return wrong;
})()"""
