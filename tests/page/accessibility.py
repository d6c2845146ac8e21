"""An accessibility check of a page in a browser: the rules that a file can be checked by, written here since no checker is there.

Each rule is one of the Web Content Accessibility Guidelines 2.2 (level AA) or of ARIA. What a person has to judge, such as whether
words are clear, is not checked.
"""

# The faults of the page as it is shown: a text for each, which begins with the name of the rule.
FAULTS = r"""(() => {
  const all = selector => [...document.querySelectorAll(selector)], faults = [];
  const nameOf = node => node.id || node.dataset.cell || node.textContent.trim().slice(0, 30) || node.nodeName;
  const check = (rule, isGood, node) => { if (!isGood) faults.push(`${rule}: ${nameOf(node)}`); };
  const isShown = node => node.getClientRects().length > 0 && node.closest(".unseen") === null;
  const shown = selector => all(selector).filter(isShown);
  const textOf = ids => (ids ?? "").split(" ").map(id => document.getElementById(id)?.textContent ?? "").join("").trim();
  const controls = shown("a[href], button, input, select, textarea, summary, [tabindex]");
  const page = document.documentElement;

  // ---- 1.3.1, 2.4.2, 2.4.6, 3.1.1: structure, title, headings, language
  check("language", page.lang.length >= 2, page);
  check("title", document.title.trim() !== "", page);
  check("zoom", !/user-scalable|maximum-scale/.test(all("meta[name=viewport]")[0].content), page);
  check("one h1", all("h1").length === 1, page);
  let level = 0;
  for (const node of shown("h1, h2, h3, h4")) {
    check("order of headings", Number(node.nodeName[1]) <= level + 1, node);
    level = Number(node.nodeName[1]);
  }
  for (const name of ["main", "header", "footer"]) check("landmarks", all(name).length === 1, page);
  for (const node of all("nav, section")) check("landmarks", textOf(node.getAttribute("aria-labelledby"))
    || node.ariaLabel, node);
  for (const node of shown("thead th")) check("heads of tables", node.scope === "col" && node.textContent.trim() !== "", node);
  for (const row of shown("table")) for (const node of row.querySelectorAll("thead ~ tbody tr"))
    check("heads of tables", node.cells[0].nodeName === "TH" && node.cells[0].scope === "row", node);

  // ---- 1.1.1, 4.1.2: names, roles, states, references
  for (const node of controls) {
    const label = node.labels === undefined || node.labels === null ? "" : [...node.labels].map(one => one.textContent).join("");
    const name = node.ariaLabel || textOf(node.getAttribute("aria-labelledby")) || label.trim()
      || (node.matches("button, summary, a") ? node.textContent.trim() : "");
    check("names", name, node);
    check("roles", node.matches("a, button, input, select, textarea, summary") || node.getAttribute("role"), node);
    check("nested controls", node.parentElement.closest("a, button, summary, select") === null, node);
    check("order of Tab", node.tabIndex <= 0, node);
    check("hidden controls", node.closest("[aria-hidden=true]") === null, node);
  }
  for (const node of all("[aria-pressed], [aria-expanded]")) for (const name of ["aria-pressed", "aria-expanded"])
    check("states", ["true", "false", null].includes(node.getAttribute(name)), node);
  for (const name of ["aria-labelledby", "aria-describedby", "aria-controls", "for"]) for (const node of all(`[${name}]`))
    for (const id of node.getAttribute(name).split(" ")) check("references", document.getElementById(id), node);
  for (const node of all("[id]")) check("ids", all(`[id="${CSS.escape(node.id)}"]`).length === 1, node);
  for (const node of all("img")) check("texts of pictures", node.hasAttribute("alt"), node);

  // ---- 2.1.1: what scrolls can be scrolled by keys
  for (const node of shown("*")) {
    const style = getComputedStyle(node), isLarger = node.scrollWidth > node.clientWidth + 1 && /auto|scroll/.test(style.overflowX)
      || node.scrollHeight > node.clientHeight + 1 && /auto|scroll/.test(style.overflowY);
    if (isLarger && node !== page && node !== document.body) check("scrolling by keys", node.tabIndex === 0, node);
  }

  // ---- 2.5.8: targets have 24 by 24 pixels, or no other target is within a circle of 24 pixels around their middle.
  // Those that are scrolled out of the view of what they are in are no targets.
  const isInView = node => {
    const box = node.getBoundingClientRect(), x = (box.left + box.right) / 2, y = (box.top + box.bottom) / 2;
    for (let at = node.parentElement; at !== document.body; at = at.parentElement) {
      const view = at.getBoundingClientRect(), isScroller = getComputedStyle(at).overflowY !== "visible";
      if (isScroller && (x < view.left || x > view.right || y < view.top || y > view.bottom)) return false;
    }
    return true;
  };
  const targets = shown("a[href], button, input, select, summary").filter(isInView)
    .map(node => [node, node.getBoundingClientRect()]);
  const distance = (box, x, y) => Math.hypot(Math.max(box.left - x, 0, x - box.right), Math.max(box.top - y, 0, y - box.bottom));
  for (const [node, box] of targets) {
    const x = (box.left + box.right) / 2, y = (box.top + box.bottom) / 2;
    const isFree = () => targets.every(([other, its]) => other === node || distance(its, x, y) >= 12);
    check("size of targets", box.width >= 24 && box.height >= 24 || isFree(), node);
  }

  // ---- 1.4.3, 1.4.11: contrast of texts, and of the edges of fields
  const channel = value => value <= 0.04045 ? value / 12.92 : ((value + 0.055) / 1.055) ** 2.4;
  const parts = colour => colour.match(/[\d.]+/g).map(Number);
  const light = ([red, green, blue]) => 0.2126 * channel(red / 255) + 0.7152 * channel(green / 255) + 0.0722 * channel(blue / 255);
  const backOf = node => {
    for (let at = node; at !== null; at = at.parentElement) {
      const colour = parts(getComputedStyle(at).backgroundColor);
      if (colour.length === 3 || colour[3] > 0) return colour;
    }
    return [255, 255, 255];
  };
  const contrast = (one, other) => {
    const [more, less] = [light(one), light(other)].sort((a, b) => b - a);
    return (more + 0.05) / (less + 0.05);
  };
  for (const node of shown("body *")) {
    const hasText = [...node.childNodes].some(one => one.nodeType === Node.TEXT_NODE && one.data.trim() !== "");
    if (hasText && node.closest("option") === null)
      check("contrast of texts", contrast(parts(getComputedStyle(node).color), backOf(node)) >= 4.5, node);
  }
  for (const node of shown("input")) check("contrast of texts",
    contrast(parts(getComputedStyle(node, "::placeholder").color), backOf(node)) >= 4.5, node);
  for (const node of shown("input, select, button")) {
    const style = getComputedStyle(node), edge = parts(style.borderTopColor), isSeen = edge.length === 3 || edge[3] > 0;
    if (parseFloat(style.borderTopWidth) > 0 && isSeen)
      check("contrast of edges", Math.max(contrast(edge, backOf(node.parentElement)),
        contrast(backOf(node), backOf(node.parentElement))) >= 3, node);
  }
  return [...new Set(faults)];
})()"""

# What is wrong with how the focus is shown: 2.4.7, and 1.4.11 for its colour. Empty if it is right.
FOCUS = r"""(() => {
  const node = document.activeElement, style = getComputedStyle(node), box = node.getBoundingClientRect();
  const parts = colour => colour.match(/[\d.]+/g).map(Number);
  const channel = value => value <= 0.04045 ? value / 12.92 : ((value + 0.055) / 1.055) ** 2.4;
  const light = ([red, green, blue]) => 0.2126 * channel(red / 255) + 0.7152 * channel(green / 255) + 0.0722 * channel(blue / 255);
  let back = [255, 255, 255];
  for (let at = node.parentElement; at !== null; at = at.parentElement) {
    const colour = parts(getComputedStyle(at).backgroundColor);
    if (colour.length === 3 || colour[3] > 0) { back = colour; break; }
  }
  if (style.outlineStyle === "none" || parseFloat(style.outlineWidth) < 2) return "no outline";
  const [more, less] = [light(parts(style.outlineColor)), light(back)].sort((a, b) => b - a);
  if ((more + 0.05) / (less + 0.05) < 3) return "a faint outline";
  if (box.bottom < 0 || box.top > innerHeight) return "out of view";
  return "";
})()"""

# Stores what has the focus, and returns whether it is what was stored first, once again.
REACH = """(node => {
  window.reached ??= new WeakSet();
  const isFirst = window.firstReached === node;
  window.firstReached ??= node;
  window.reached.add(node);
  return isFirst;
})(document.activeElement)"""

# The controls that Tab has to reach and that are not stored. Of the matrix it reaches one cell.
UNREACHED = """[...document.querySelectorAll("button, input, select, summary, [tabindex='0']")]
    .filter(node => node.getClientRects().length > 0 && !window.reached.has(node))
    .filter(node => node.tabIndex === 0 || node.closest("#matrix") === null)
    .map(node => node.id || node.textContent.trim().slice(0, 40) || node.className)"""


def faults(tab):
    """Returns the faults of the page of a tab, as it is shown."""
    return tab.evaluate(FAULTS)


def walk(tab, rounds=2, most=800):
    """Presses Tab until it is where it was at first, and once more if a control appeared meanwhile that it had passed.

    Returns the faults of the focus, and the controls that it didn't reach.
    """
    wrong = []
    for _ in range(most):
        tab.press("Tab")
        if tab.evaluate("document.activeElement === document.body"):
            continue
        rounds -= tab.evaluate(REACH)
        if rounds == 0 or rounds == 1 and not tab.evaluate(UNREACHED):
            break
        fault = tab.evaluate(FOCUS)
        if fault:
            wrong.append(f"{fault}: {tab.evaluate('document.activeElement.id || document.activeElement.textContent.slice(0, 40)')}")
    return wrong, tab.evaluate(UNREACHED)
