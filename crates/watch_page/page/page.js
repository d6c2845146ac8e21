"use strict";
// The page of `rackd watch`: asks the watch for /state.json up to four times a second, and draws one line of the rack,
// or a table of all its lines.
// Text of the watch is put into the page as text nodes and attributes only, so none of it is read as HTML.

// ---- Constants

// Milliseconds: the least and the most between two requests, the pause after a failure, and when a request fails.
const PERIOD = 250, LONGEST_PERIOD = 2000, RETRY = 1000, TIMEOUT = 2500;
// How many times as long as it took to draw an answer the page waits, so that it leaves the processors to the rack.
const REST = 40;
// Milliseconds between two drawings of a line that does not change, and for which a changed octet is marked.
const REDRAW = 1000, FRESH = 1000;
// Milliseconds over which the rate of entries is taken, at least from one answer to the next, and between two
// announcements to a screen reader.
const RATE_SPAN = 2000, ANNOUNCE_PAUSE = 3000;
// Entries of a line that the page keeps: the newest ones, and of those before them the ones that are not routine.
const KEPT_NEWEST = 400, KEPT_NOTABLE = 200;
// The most entries, groups of faults, and octets of a slave that are drawn.
const MOST_ENTRIES = 100, MOST_GROUPS = 60, MOST_OCTETS = 48;
// The capacity of an endless line, and the number of colours for masters.
const ENDLESS = 4294967295, COLOURS = 16;
// What is chosen in place of a line to see all lines, and the most masters of a line of which none is folded away.
const ALL = "all", MOST_COLUMNS = 4;

const POINTS = new Map([[null, "Data_Exchange"], [56, "RD_Inp"], [57, "RD_Outp"], [58, "Global_Control"],
  [59, "Get_Cfg"], [60, "Slave_Diag"], [61, "Set_Prm"], [62, "Chk_Cfg"]]);

// What a rule, or a fault that is no refusal, means.
const MEANINGS = {
  NotHolder: "Only the master that holds the slave may use this access point, until the slave is released.",
  NotListed: "Only masters in a list of the rack file may do this: lockers for Set_Prm, readers for RD_Inp, RD_Outp.",
  NotActive: "The access point is missing, or off in this state; Set_Prm and then Chk_Cfg lead to Data_Exch.",
  Busy: "The operator marked the access point busy, and it refuses every request until the mark is removed.",
  Length: "The access point requires a different number of octets; the configuration defines it for Data_Exchange.",
  NotSelected: "The Global_Control is for groups that this slave is not in; Set_Prm sets the groups of a slave.",
  NoService: "Access points take SRD, and Global_Control takes SDN; SDA, ident and LSAP status are not simulated.",
  NoStation: "No slave of this line has this address, and the masters of the line do not answer.",
  NotRequest: "The frame is a response, and slaves answer requests only.",
  ForeignSender: "The source address of the frame is not the address of the master that sent it.",
  NoFrame: "The octets are not exactly one frame with a right start, length, check sequence and end.",
  NoMaster: "The sender is no master of this line; the rack file lists its masters.",
  BadFunction: "The function code is reserved, and no station answers it.",
  BadExtension: "The frame announces an access point that is missing, or is not 0 to 63.",
  BadBroadcast: "Only a Global_Control that is sent as SDN to point 58 may go to all stations.",
  "wrong parameters": "A slave checks Set_Prm after its reply; wrong parameters set Prm_Fault and release the slave.",
  "wrong configuration": "A slave checks Chk_Cfg after its reply; a wrong one sets Cfg_Fault and releases the slave.",
  "watchdog ran out": "The holder did not restart the watchdog of the slave in time, so the slave was released.",
  halt: "A halted line answers no request, and all its slaves are released.",
  "Repeat (other)": "FCB did not change, so the slave sent its last reply again and ignored the new telegram.",
  "not asked for": "Sync needs Sync_Req, and Freeze needs Freeze_Req, in the parameters of the slave.",
  "none selected": "No slave that this Global_Control reached is in a group that it selects.",
};

// ---- State

// What the page knows: the lines as they are followed, `frozen` lines while it is paused, and what the reader chose.
const state = {
  run: "0", number: 0, rack: "", folder: "", lines: new Map(), frozen: null, lost: false,
  line: null, cell: null, tabCell: null, matrix: "", isUnfolded: false, group: null, orders: new Map(),
  drawnAt: 0, marked: false, newestShown: 0, announced: "", announcedAt: -Infinity,
};
// The entry of each node in the list of entries.
const entryOfNode = new WeakMap();

const newRecord = () =>
  ({ now: null, entries: [], groups: new Map(), octets: new Map(), samples: [], arrived: 0, at: null });
// Returns a copy of what is known of a line, which stays as it is while the line is followed.
const copyOf = record => ({
  ...record, groups: new Map(record.groups), octets: new Map(record.octets), samples: [...record.samples],
});
const drawnLines = () => state.frozen ?? state.lines;

// ---- Nodes

const byId = id => document.getElementById(id);

// Makes an element. Attributes and content that are null are left out.
function make(tag, attributes, ...content) {
  const node = document.createElement(tag);
  for (const [name, value] of Object.entries(attributes)) if (value !== null) node.setAttribute(name, value);
  node.append(...content.flat(Infinity).filter(part => part !== null));
  return node;
}

const soft = (...content) => make("span", { class: "soft" }, ...content);
const code = text => make("code", {}, text);
const stateBadge = word => make("span", { class: `state ${word}` }, word);
// A name of a file or folder, isolated so that the direction of its script does not move other text.
const nameNode = name => make("bdi", {}, name);

// Makes the head of a table. A column whose name begins with `#` has numbers; one that is no text is centred.
function tableHead(...columns) {
  return make("thead", {}, make("tr", {}, columns.map(column => {
    if (typeof column !== "string") return make("th", { scope: "col", class: "centred" }, column);
    const isNumber = column.startsWith("#");
    return make("th", { scope: "col", class: isNumber ? "number" : null }, column.slice(isNumber ? 1 : 0));
  })));
}

// Makes a list of names and what belongs to them; rows without content are left out.
const fieldList = rows => make("dl", {}, rows.filter(([, content]) => content !== "").map(([name, content]) =>
  [make("dt", {}, name), make("dd", {}, content)]));

const keyOf = node => node.nodeType === Node.ELEMENT_NODE ? node.getAttribute("data-key") : null;

// Returns the node to update: the one with the key of the wanted node, or if it has none, one of its kind at its place.
function nodeToUpdate(wanted, cursor, keyed) {
  const key = keyOf(wanted);
  if (key !== null) return keyed.get(key) ?? null;
  return cursor !== null && keyOf(cursor) === null && cursor.nodeName === wanted.nodeName ? cursor : null;
}

function updateNode(node, wanted) {
  if (node.nodeType === Node.TEXT_NODE) {
    if (node.data !== wanted.data) node.data = wanted.data;
    return;
  }
  for (const { name, value } of wanted.attributes)
    if (node.getAttribute(name) !== value) node.setAttribute(name, value);
  for (const { name } of [...node.attributes]) if (!wanted.hasAttribute(name)) node.removeAttribute(name);
  updateChildren(node, [...wanted.childNodes]);
}

// Makes the children of a node equal to the wanted ones. A node that stays is not replaced, so it keeps its focus.
function updateChildren(parent, wantedNodes) {
  const keys = new Set(wantedNodes.map(keyOf));
  // What goes is removed first, so that what stays need not move: a node that is moved loses the focus.
  for (const node of [...parent.childNodes]) if (keyOf(node) !== null && !keys.has(keyOf(node))) node.remove();
  const keyed = new Map([...parent.childNodes].map(node => [keyOf(node), node]));
  let cursor = parent.firstChild;
  for (const wanted of wantedNodes) {
    const node = nodeToUpdate(wanted, cursor, keyed);
    if (node !== null && node === cursor) cursor = cursor.nextSibling;
    else parent.insertBefore(node ?? wanted, cursor);
    if (node !== null) updateNode(node, wanted);
  }
  while (parent.childNodes.length > wantedNodes.length) parent.lastChild.remove();
}

// Shows nodes and text in an element.
function show(id, ...content) {
  const nodes = content.flat(Infinity).filter(part => part !== null);
  updateChildren(byId(id), nodes.map(part => typeof part === "string" ? document.createTextNode(part) : part));
}

// ---- Words

const grouped = number => number.toLocaleString("en");
const milliseconds = units => grouped(units * 10) + " ms";
const plural = (noun, items) => noun + (items.length === 1 ? " " : "s ") + items.join(", ");
const pairsOf = hex => hex.match(/../g) ?? [];

// Returns a noun with addresses in ascending order, and three or more that follow one another as the first to the last.
function span(noun, addresses) {
  const runs = [];
  for (const address of [...addresses].sort((one, other) => one - other)) {
    if (runs.at(-1)?.at(-1) === address - 1) runs.at(-1).push(address);
    else runs.push([address]);
  }
  const words = runs.flatMap(run => run.length > 2 ? [`${run[0]} to ${run.at(-1)}`] : run);
  return noun + (addresses.length === 1 ? " " : "s ") + words.join(", ");
}

// Decodes a name whose characters are the octets of UTF-8; returns it unchanged if they are not UTF-8.
function decodeName(name) {
  try {
    const octets = Uint8Array.from(name, character => character.codePointAt(0));
    return new TextDecoder("utf-8", { fatal: true, ignoreBOM: true }).decode(octets);
  } catch {
    return name;
  }
}

// Writes a path as a word of a shell.
function shellWord(path) {
  const word = path.startsWith("-") ? "./" + path : path;
  return /^[\w./+:@%,-]+$/.test(word) ? word : "'" + word.replaceAll("'", "'\\''") + "'";
}

// Returns the name of an audit text. The parts of an endless line are one text.
const textName = file => file === null ? null : file.replace(/^(line-\d+-\d+)\.\d+\.audit$/, "$1.*.audit");
const rackdCommand = (verb, line) =>
  `rackd ${verb} ${shellWord(state.rack)} ${shellWord(state.folder)}/${textName(line.file)}`;

// Returns how long ago a time was; nothing if it is not known.
function agoOf(time) {
  if (time === null) return "";
  const seconds = Math.floor((Date.now() - time) / 1000);
  if (seconds >= 100) return `${Math.round(seconds / 60)} min ago`;
  return seconds < 1 ? "now" : `${seconds} s ago`;
}

// ---- Entries

// Returns the service of a request, or the event in words, without frame and function.
const serviceOf = ({ service, words }) => service
  ?? words.slice(words.lastIndexOf("  ") + 1).trim().replace(/^SD\d /, "").replace(/ from \d+$/, "");

const isRefusing = answer => answer.outcome === "refused";

// The names of faults by the kind of the reason.
const WRONG = { WrongParameters: "wrong parameters", WrongConfiguration: "wrong configuration" };

// Returns the name of a fault that is no refusal.
function faultName(entry) {
  if (entry.from === "operator") return entry.event.kind === "halt" ? "halt" : "watchdog ran out";
  const wrong = WRONG[entry.reason?.kind];
  if (wrong !== undefined) return wrong;
  if (entry.surprising) return "surprising";
  if (entry.rule === "Repeat") return "Repeat (other)";
  if (entry.rule !== null && entry.rule !== "Done") return entry.rule;
  const isSelected = entry.slaves.some(answer => answer.rule !== "NotSelected");
  return entry.slaves.length > 0 && !isSelected ? "none selected" : "not asked for";
}

// Returns the faults of an entry, each with its slave, to whom it went, rule or name, and sentence. A request to all
// slaves has one for each slave that refused it, and a tick one for each slave that it released.
function faultsOf(entry) {
  const refusing = entry.refused ? entry.slaves.filter(isRefusing) : [];
  if (refusing.length > 0) return refusing.map(answer => ({ ...answer, to: `slave ${answer.slave}` }));
  const rule = entry.refused ? entry.rule ?? "refused" : faultName(entry), sentence = entry.result;
  if (rule === "watchdog ran out")
    return entry.changes.map(({ slave }) => ({ slave, to: `slave ${slave}`, rule, sentence }));
  return [{ slave: entry.to === "slave" ? entry.address : null, to: entry.target, rule, sentence }];
}

// Returns the result of an entry in one row. A request to all slaves has a sentence of each slave.
function resultOf(entry) {
  const answers = entry.refused ? entry.slaves.filter(isRefusing) : entry.slaves;
  if (answers.length === 0) return entry.sentence;
  return answers.map(answer => `slave ${answer.slave}: ${answer.sentence}`).join(" ");
}

// Returns whether an entry is a Data_Exchange, an input or a tick that did nothing else.
function isRoutine(entry) {
  if (entry.fault || entry.changes.length > 0) return false;
  if (entry.from === "operator") return entry.event.kind === "in" || entry.event.kind === "tick";
  return entry.service === "Data_Exchange" && entry.rule === "Done";
}

const isNotable = entry => entry.note !== undefined || entry.fault || entry.changes.length > 0;
const changesSlave = (entry, slave) => entry.changes.some(change => change.slave === slave);
const concerns = (entry, slave) => entry.to === "slave" && entry.address === slave
  || entry.slaves.some(answer => answer.slave === slave) || changesSlave(entry, slave);

// Returns an entry of the watch with what the page derives from it. `at` is when it came, null if it was there before.
function readEntry({ number, entry }, text, at) {
  if (entry.note !== undefined)
    return { note: entry.note, number, text, at, slaves: [], changes: [], searched: entry.note.toLowerCase() };
  const { event, answer } = entry, to = entry.to.replace("_", " ");
  const target = entry.address === null ? to : `${to} ${entry.address}`;
  const sender = entry.from === "master" ? `master ${entry.master}` : entry.from;
  const who = target === "nobody" ? sender : `${sender} → ${target}`;
  const read = { ...entry, number, text, at, target, who, rule: answer.rule, service: serviceOf(event) };
  read.result = resultOf(read);
  read.routine = isRoutine(read);
  read.searched = [read.who, event.words, read.rule, read.result, event.octets, event.decoded?.words, answer.words]
    .join("\n").toLowerCase();
  return read;
}

// ---- Taking an answer of the watch

// Takes an answer. Returns whether anything changed.
function takeAnswer(answer) {
  const isFirst = answer.run !== state.run;
  if (isFirst) Object.assign(state, { run: answer.run, lines: new Map(), group: null });
  state.number = answer.number;
  if (answer.same) {
    for (const record of state.lines.values()) takeSample(record);
    return false;
  }
  state.rack = decodeName(answer.rack);
  state.folder = decodeName(answer.folder);
  for (const line of answer.lines) {
    if (!state.lines.has(line.line)) state.lines.set(line.line, newRecord());
    takeLine(state.lines.get(line.line), line, isFirst);
  }
  if (state.line === ALL ? state.lines.size < 2 : !state.lines.has(state.line)) state.line = namedLine();
  return true;
}

// Returns the line that the address of the page names, or ALL; the first line if it names none of the rack.
function namedLine() {
  if (location.hash === "#lines" && state.lines.size > 1) return ALL;
  const named = Number(/^#line=(\d+)$/.exec(location.hash)?.[1]);
  return state.lines.has(named) ? named : state.lines.keys().next().value;
}

function takeLine(record, line, isFirst) {
  const before = record.now, isSameText = before !== null && textName(before.file) === textName(line.file);
  const came = before === null ? 0 : line.count - (isSameText ? before.count : 0);
  record.arrived += came;
  if (came > 0) record.at = Date.now();
  if (!isSameText) {
    record.octets.clear();
    record.samples = [];
  }
  record.now = line;
  takeSample(record);
  for (const slave of line.slaves)
    for (const key of ["inputs", "shown", "outputs", "latest"]) takeOctets(record, slave, key);
  takeEntries(record, line, isFirst);
}

function takeSample(record) {
  const time = performance.now();
  record.samples.push({ time, count: record.now.count });
  while (record.samples.length > 2 && time - record.samples[0].time > RATE_SPAN) record.samples.shift();
}

// Stores octets of a slave with the times of their last changes.
function takeOctets(record, slave, key) {
  const name = `${slave.address} ${key}`, hex = slave[key], before = record.octets.get(name);
  if (before !== undefined && before.hex === hex) return;
  const old = before !== undefined && before.hex.length === hex.length ? pairsOf(before.hex) : null;
  const now = before === undefined ? -Infinity : performance.now();
  const times = pairsOf(hex).map((pair, at) => old !== null && old[at] === pair ? before.times[at] : now);
  record.octets.set(name, { hex, times });
}

// Takes the new entries of a line, and drops the oldest ones.
function takeEntries(record, line, isFirst) {
  const last = record.entries.at(-1), at = isFirst ? null : Date.now();
  const came = [...line.notable, ...line.recent].filter(entry => entry.number > (last?.number ?? 0));
  const beginnings = came.map(({ entry }) => entry.begins ?? null);
  let text = beginnings.some(name => name !== null) ? last?.text ?? null : textName(line.file);
  const read = came.map((entry, place) => {
    text = textName(beginnings[place]) ?? text;
    return readEntry(entry, text, at);
  });
  read.forEach(entry => takeFaults(record, entry));
  const entries = [...record.entries, ...read];
  const older = entries.slice(0, -KEPT_NEWEST).filter(isNotable);
  record.entries = [...older.slice(-KEPT_NOTABLE), ...entries.slice(-KEPT_NEWEST)];
}

// Counts the faults of an entry by master, slave and rule; the group of the newest fault is the last one.
function takeFaults(record, entry) {
  for (const { slave, to, rule, sentence } of entry.refused || entry.fault ? faultsOf(entry) : []) {
    const { master, refused } = entry, key = [refused, master, to, rule].join(" ");
    const count = (record.groups.get(key)?.count ?? 0) + 1;
    record.groups.delete(key);
    record.groups.set(key, { key, refused, master, slave, to, rule, sentence, count, last: entry });
    if (record.groups.size > MOST_GROUPS) record.groups.delete(record.groups.keys().next().value);
  }
}

// ---- What is known of a line

// Returns how many entries of a line came per second.
function rateOf(record) {
  const first = record.samples[0], last = record.samples.at(-1);
  return last.time > first.time ? (last.count - first.count) * 1000 / (last.time - first.time) : 0;
}

// Returns the class and the word for the condition of a line. Only a line to which entries come now is green.
function conditionOf(record) {
  const line = record.now, rate = rateOf(record);
  if (state.lost) return ["wrong", "no answer"];
  if (line.file === null) return ["none", "no file"];
  if (line.row > 0) return ["wrong", "wrong row"];
  if (line.halted) return ["halted", "halted"];
  if (line.standing === "empty") return ["none", "no header"];
  if (rate > 0) return ["good", `${Math.round(rate)}/s`];
  return ["none", record.at === null ? "quiet" : agoOf(record.at)];
}

const mastersOf = line => line.masters.map(master => master.address).filter(address => address !== null);
const isListed = (list, master) => list === null || list.includes(master);
const mayRead = (slave, master) => slave.holder === master || isListed(slave.readers, master);

// Returns what a master may do to a slave now: a class, the word of the cell, and the words for a screen reader.
function rightOf(line, slave, master) {
  if (line.halted) return ["off", "halted", "the line is halted"];
  if (slave.holder === master) return ["holds", "holds", "holds it"];
  if (slave.holder !== null) return ["held", "–", `master ${slave.holder} holds it`];
  if (isListed(slave.lockers, master)) return ["may", "may lock", "may lock it"];
  return ["unlisted", "not listed", "not listed"];
}

// Returns the sentence of a cell of the matrix about changing the slave.
function changeSentence(line, slave, master) {
  const name = `slave ${slave.address}`, refusal = `A Set_Prm of master ${master} is refused by`;
  switch (rightOf(line, slave, master)[0]) {
    case "off": return `The line is halted, so no master may change ${name}.`;
    case "may": return `Nobody holds ${name}. Master ${master} may lock it with Set_Prm.`;
    case "held": return `Master ${master} may not change ${name}: master ${slave.holder} holds it `
      + `since entry ${slave.since}. ${refusal} NotHolder.`;
    case "holds": return `Master ${master} holds ${name} since entry ${slave.since}: no other master may change its `
      + "outputs, parameters and configuration. " + (slave.left === null ? "Its watchdog is off."
        : `Its watchdog has ${milliseconds(slave.left)} of ${milliseconds(slave.full)} left.`);
    default: return `Master ${master} may not lock ${name}: ` + (slave.lockers.length === 0
      ? "its list of lockers is empty." : `only ${plural("master", slave.lockers)} may.`) + ` ${refusal} NotListed.`;
  }
}

// Returns the sentence of a cell of the matrix about reading the slave.
function readSentence(line, slave, master) {
  if (line.halted) return "";
  if (mayRead(slave, master))
    return " It may read its inputs and outputs" + (slave.state === "Data_Exch" ? "." : " once it is in Data_Exch.");
  return " It may not read its inputs and outputs: "
    + (slave.readers.length === 0 ? "its list of readers is empty." : `only ${plural("master", slave.readers)} may.`);
}

// Returns the words for how many slaves of a line are held, and by which masters.
function heldOf(line) {
  const holders = line.masters.filter(master => master.holds.length > 0).map(master => master.address);
  const count = line.slaves.filter(slave => slave.holder !== null).length;
  return `${count} of ${line.slaves.length}` + (count === 0 ? "" : ` by ${span("master", holders)}`);
}

// Returns the sentence about all slaves of a line: how many are held by whom, and who may lock the others.
function overviewOf(line) {
  if (line.halted) return "The line is halted, so no master may change any slave.";
  const free = new Map(), isOne = line.slaves.filter(slave => slave.holder !== null).length === 1;
  for (const { holder, address, lockers } of line.slaves) {
    const who = lockers === null ? "every master" : lockers.length === 0 ? "no master" : span("master", lockers);
    if (holder === null) free.set(who, [...free.get(who) ?? [], address]);
  }
  const held = heldOf(line).replace(/^\d+ of \d+/, `$& slaves ${isOne ? "is" : "are"} held`);
  const open = [...free].map(([who, addresses]) => `nobody holds ${span("slave", addresses)}, which ${who} may lock`);
  return [held, ...open].join("; ") + ".";
}

// Returns the last entry of a text before this one that passes a test; null if the page has none.
const lastBefore = (record, entry, test) => record.entries.findLast(other =>
  other.number < entry.number && other.text === entry.text && test(other)) ?? null;

// Returns the first entry from which on the page has every entry of the text; 0 if it has none.
function firstKept(record) {
  const text = textName(record.now.file);
  let first = 0;
  for (const entry of record.entries.filter(entry => entry.note === undefined).reverse()) {
    if (entry.text !== text || first > 0 && entry.place !== first - 1) break;
    first = entry.place;
  }
  return first;
}

// ---- The head and the banner

function masterChip(line, master) {
  if (master === null) return make("span", { class: "chip nobody" }, "nobody");
  const at = mastersOf(line).indexOf(master);
  return make("span", { class: at < 0 ? "chip" : `chip m${at % COLOURS}` }, `M${master}`);
}

// Draws a button for each line with its condition as it is now, also while the page is paused.
function drawLineButtons() {
  show("lines", [...state.lines].map(([number, record]) => {
    const [kind, word] = conditionOf(record);
    const attributes = { type: "button", "data-line": number, "aria-pressed": String(number === state.line) };
    return make("button", attributes, make("i", { class: kind }), `Line ${number} `, make("small", {}, word));
  }));
  byId("all").hidden = state.lines.size < 2;
  byId("all").setAttribute("aria-pressed", String(state.line === ALL));
}

// Returns the title of the page: it says if the watch does not answer, a row is wrong, or every line is halted.
function titleOf() {
  const kinds = [...state.lines.values()].map(record => conditionOf(record)[0]);
  const isHalted = kinds.length > 0 && kinds.every(kind => kind === "halted");
  const word = state.lost ? "no answer" : kinds.includes("wrong") ? "wrong row" : isHalted ? "halted" : null;
  return (word === null ? "" : `${word} · `) + "rackd watch";
}

function drawSource(line) {
  const used = line.capacity === ENDLESS ? `${grouped(line.count)} entries of an endless line`
    : `${grouped(line.count)} of ${grouped(line.capacity)} places used`;
  const standing = { empty: "no header yet", legal: "legal so far" }[line.standing] ?? `${line.standing} ${line.row}`;
  const begun = line.begun > 0 ? ` · ${line.begun} octets of the next row` : "";
  if (line.file === null)
    show("source", make("b", {}, "no file yet"), ` of line ${line.line} in `, nameNode(state.folder));
  else show("source", make("b", {}, nameNode(line.file)), ` · ${used} · ${standing}${begun}`);
}

// Returns the records of the line that is shown, or of all lines.
const chosenOf = lines =>
  [...lines].filter(([line]) => state.line === ALL || line === state.line).map(([, record]) => record);
const arrivedIn = lines => chosenOf(lines).reduce((sum, record) => sum + record.arrived, 0);

// Shows whether the page is up to date, also while it is paused or has no line yet.
function drawStatus() {
  const came = Math.max(0, arrivedIn(state.lines) - arrivedIn(drawnLines()));
  const times = chosenOf(drawnLines()).map(record => record.at).filter(time => time !== null);
  const at = times.length === 0 ? null : Math.max(...times), isLive = at !== null && Date.now() - at < 3000;
  let text = at === null ? "no new entry" : `last entry ${agoOf(at)}`;
  if (state.frozen !== null) text = came === 0 ? "paused" : `paused, ${grouped(came)} new`;
  if (state.lost) text = "no answer";
  byId("live").className = state.lost ? "lost" : state.frozen !== null ? "paused" : isLive ? "" : "quiet";
  show("live", text);
  show("pause", state.frozen === null ? "Pause" : "Continue");
  if (document.title !== titleOf()) document.title = titleOf();
  drawLineButtons();
  if (state.line === ALL) drawAllLines();
  drawBanner(drawnLines().get(state.line)?.now ?? null);
}

// Returns the notice about a row that ended the following of a line.
function wrongRowNotice(line) {
  const isBad = line.standing === "bad line";
  return make("p", { class: "bad" }, `Row ${line.row} of `, nameNode(textName(line.file)),
    isBad ? " is badly formed, or belongs to another line. " : " is not what this line would have written. ",
    code(rackdCommand("check", line)), " reports: ", make("b", {}, `${line.standing} ${line.row}`),
    ". The page shows the line as it was before that row; nothing after it is read.",
    isBad ? "" : " Is the rack file the one that the rack was started with?");
}

// Returns the notices about what makes the rest of the page old, with what to do about it.
function noticesOf(line) {
  const notices = [];
  if (line.row > 0) notices.push(wrongRowNotice(line));
  if (line.file === null) notices.push(make("p", { class: "mild" }, `There is no audit file of line ${line.line} yet. `,
    "Start the rack with ", code(`rackd serve ${shellWord(state.rack)} --audit ${shellWord(state.folder)}`)));
  if (line.halted) notices.push(make("p", { class: "mild" }, `Line ${line.line} halted at entry ${line.count}: `,
    "every slave is released, and no request is answered. Restart the rack to continue. With ", code("--endless"),
    " a line does not halt when all its places are used."));
  return notices;
}

function drawBanner(line) {
  const lost = make("p", { class: "bad" }, "This page gets no answer, so what is shown is old. Has ",
    code("rackd watch"), " or the rack with ", code("--page"), " stopped?");
  show("banner", state.lost ? lost : null, line === null ? null : noticesOf(line));
}

// ---- All lines

// Returns the words for the condition of a line in the table of all lines: also how much of its journal is used.
function conditionWords(line, kind, word) {
  const used = line.capacity === ENDLESS ? "endless" : `${Math.floor(line.count * 100 / line.capacity)} % full`;
  if (kind === "good") return `legal so far, ${used}`;
  return kind === "none" && line.standing === "legal" ? `${word}, ${used}` : word;
}

function lineRow(number, record) {
  const line = record.now, [kind, word] = conditionOf(record), last = newestGroup(record, true);
  const button = make("button", { type: "button", class: "text", "data-line": number }, `Line ${number}`);
  const refusals = groupsOf(record, true).reduce((sum, { count }) => sum + count, 0);
  const exchanging = line.slaves.filter(slave => slave.state === "Data_Exch").length;
  return make("tr", {}, make("th", { scope: "row" }, button),
    make("td", { class: "condition" }, make("i", { class: kind }), conditionWords(line, kind, word)),
    make("td", {}, heldOf(line)), make("td", { class: "number" }, `${exchanging} of ${line.slaves.length}`),
    make("td", { class: "number" }, kind === "good" ? word : "0/s"), make("td", { class: "number" }, grouped(refusals)),
    make("td", {}, last === null ? soft("none") : `${last.last.who}: ${last.rule}`));
}

function drawAllLines() {
  const lines = [...drawnLines()];
  show("source", make("b", {}, nameNode(state.rack)), ` · ${lines.length} lines · texts in `, nameNode(state.folder));
  show("all-lines",
    tableHead("Line", "Condition", "Slaves held", "#In Data_Exch", "#Entries", "#Refusals", "Last refusal"),
    make("tbody", {}, lines.map(([number, record]) => lineRow(number, record))));
  show("foot");
}

// ---- The matrix

function matrixCell(line, slave, master) {
  const [kind, word, spoken] = rightOf(line, slave, master), name = `${slave.address} ${master}`;
  const isRead = mayRead(slave, master), isChosen = name === state.cell;
  const chip = kind === "holds" ? ` chip m${mastersOf(line).indexOf(master) % COLOURS}` : "";
  return make("td", { class: "centred", "data-key": master }, make("button", {
    type: "button", class: kind + chip, "data-cell": name, tabindex: name === state.tabCell ? "0" : "-1",
    "aria-label": `master ${master}, slave ${slave.address}: ${spoken}${isRead ? "" : ", may not read it"}`,
    "aria-pressed": String(isChosen), "aria-describedby": isChosen ? "answer" : null,
  }, word + (isRead ? "" : " ⌀")));
}

// Returns the masters that have a column: those that hold a slave, and those of the cells that are chosen or in focus.
function shownMasters(line) {
  const masters = mastersOf(line);
  if (state.isUnfolded || masters.length <= MOST_COLUMNS) return masters;
  const used = [state.cell, document.activeElement?.dataset.cell ?? null].map(name => Number(name?.split(" ")[1]));
  return masters.filter(master => used.includes(master) || line.slaves.some(slave => slave.holder === master));
}

// Shows how many masters are folded away, and the button that shows their columns.
function drawFold(masters, shown) {
  const folded = masters.length - shown.length;
  const words = folded > 0 ? `${folded} of ${masters.length} masters hold no slave, and have no column here. ` : "";
  const hasButton = folded > 0 || state.isUnfolded && masters.length > MOST_COLUMNS;
  show("fold", words, !hasButton ? null : make("button", {
    type: "button", "data-fold": "", "aria-expanded": String(state.isUnfolded), "aria-controls": "matrix",
  }, state.isUnfolded ? "Hide masters that hold no slave" : "Show all masters"));
}

function drawMatrixTable(line, masters) {
  show("matrix", tableHead("Slave", "Held by", "State", ...masters.map(master => masterChip(line, master))),
    make("tbody", {}, line.slaves.map(slave => make("tr", {}, make("th", { scope: "row" }, String(slave.address)),
      make("td", {}, masterChip(line, slave.holder)), make("td", {}, stateBadge(slave.state)),
      masters.map(master => matrixCell(line, slave, master))))));
  byId("main").classList.toggle("wide", masters.length > MOST_COLUMNS);
  drawFold(mastersOf(line), masters);
}

// Draws the matrix if it has changed, and its sentence. Tab reaches one cell of it, and the arrow keys the others.
function drawMatrix(line) {
  const masters = shownMasters(line);
  const names = line.slaves.flatMap(slave => masters.map(master => `${slave.address} ${master}`));
  if (!names.includes(state.cell)) state.cell = null;
  if (!names.includes(state.tabCell)) state.tabCell = names[0] ?? null;
  const matrix = JSON.stringify([state.line, state.cell, state.tabCell, masters, state.isUnfolded, line.halted,
    line.slaves.map(one => [one.address, one.state, one.holder, one.lockers, one.readers])]);
  if (matrix !== state.matrix) drawMatrixTable(line, masters);
  state.matrix = matrix;
  const [address, master] = (state.cell ?? "").split(" ").map(Number);
  const slave = state.cell === null ? null : line.slaves.find(one => one.address === address);
  show("answer", slave === null ? overviewOf(line)
    : changeSentence(line, slave, master) + readSentence(line, slave, master));
}

// ---- Refusals and other faults

const groupsOf = (record, refused) => [...record.groups.values()].filter(group => group.refused === refused);
const newestGroup = (record, refused) => groupsOf(record, refused).at(-1) ?? null;

// Returns the group that is explained: the chosen one, or that of the last refusal, or of the last other fault.
const explainedGroup = record =>
  record.groups.get(state.group) ?? newestGroup(record, true) ?? newestGroup(record, false);

const entryName = entry => `${entry.place} of ${entry.text ?? "an earlier text"}`;
const conditionText = ({ state, holder }) => `${state}, held by ${holder === null ? "nobody" : `master ${holder}`}`;
const changeText = change =>
  `slave ${change.slave}: ${conditionText(change.before)} → ${conditionText(change.after)}`;
const replyOf = entry => entry.answer.words ?? (entry.from === "operator" ? "" : "none (silence)");
const decodedRows = ({ event }) => event.decoded ? [[event.decoded.as, event.decoded.words]] : [];

// Returns rows about a slave before an entry: the last entry that changed it, and a fault after that.
function historyRows(record, entry, slave) {
  if (slave === null) return [];
  const change = lastBefore(record, entry, other => changesSlave(other, slave));
  const fault = lastBefore(record, entry, other => other.fault && !other.refused && concerns(other, slave));
  const rowOf = other => `entry ${other.place}, ${other.who}, ${other.service}: ${other.result}`;
  const isLater = fault !== null && fault.number > (change?.number ?? 0);
  return [["before it", change === null ? `no entry on this page changed slave ${slave}` : rowOf(change)],
    ["fault before it", isLater ? rowOf(fault) : ""]];
}

// Returns a slave as it is now.
function slaveNow(line, address) {
  const slave = line.slaves.find(one => one.address === address);
  if (slave === undefined) return "";
  const { holder, since, diagnosis } = slave;
  const held = holder === null ? "nobody holds it" : `master ${holder} holds it since entry ${since}`;
  const faults = (diagnosis.prm_fault ? ", Prm_Fault" : "") + (diagnosis.cfg_fault ? ", Cfg_Fault" : "");
  return [stateBadge(slave.state), ` ${held}${faults}`];
}

function drawReason(record) {
  const group = explainedGroup(record), entry = group?.last;
  byId("reason").className = group === null ? "" : group.refused ? "bad" : "mild";
  if (group === null) {
    show("reason", make("p", { class: "none" }, "No request was refused in the entries on this page."));
    return;
  }
  const ago = entry.at === null ? "" : ` · ${agoOf(entry.at)}`;
  show("reason", state.group === null ? null
    : make("button", { type: "button", "data-group": "" }, "Show the last refusal"),
  make("h3", {}, `${entry.who}: ${entry.service} `,
    make("em", {}, `${group.refused ? "refused" : "fault"}, ${group.rule}`)),
  make("p", { id: "sentence" }, group.sentence),
  fieldList([["entry", entryName(entry) + ago], ...decodedRows(entry), ["reply", replyOf(entry)],
    ["meaning", MEANINGS[group.rule] ?? ""], ["change", entry.changes.map(changeText).join("; ")],
    ...historyRows(record, entry, group.slave), [`slave ${group.slave} now`, slaveNow(record.now, group.slave)]]));
}

// Returns groups, the newest first. While the pointer or the focus is in their table, they keep their order.
function orderedGroups(record, refused, id) {
  const groups = groupsOf(record, refused).reverse();
  const held = byId(id).matches(":hover, :focus-within") ? state.orders.get(id) ?? [] : [];
  groups.sort((one, other) => held.indexOf(one.key) - held.indexOf(other.key));
  state.orders.set(id, groups.map(group => group.key));
  return groups;
}

function groupRow(line, group, isExplained) {
  return make("tr", { "data-key": group.key, "data-group": group.key, class: isExplained ? "chosen" : null },
    make("th", { scope: "row" }, group.master === null ? "operator" : masterChip(line, group.master)),
    make("td", {}, group.to), make("td", { class: "wide" }, make("button", {
      type: "button", class: "text", "aria-pressed": String(isExplained),
    }, group.refused ? group.rule : group.sentence)),
    make("td", { class: "number" }, grouped(group.count)), make("td", { class: "number" }, String(group.last.place)),
    make("td", { class: "soft" }, group.last.at === null ? "earlier" : agoOf(group.last.at)));
}

function drawGroups(record, id, refused, column) {
  const groups = orderedGroups(record, refused, id), explained = explainedGroup(record);
  const rows = groups.map(group => groupRow(record.now, group, group === explained));
  show(id, groups.length === 0 ? null : tableHead("Master", "To", column, "#Times", "#Last entry", "When"),
    make("tbody", {}, groups.length === 0 ? make("tr", {}, make("td", { class: "soft" }, "none")) : rows));
}

// Announces the last refusal to a screen reader when it is another one than before, at most every few seconds.
function announceRefusal(record) {
  const group = newestGroup(record, true), now = performance.now();
  if (group === null || now - state.announcedAt < ANNOUNCE_PAUSE) return;
  const text = `Refused: ${group.last.who}, ${group.last.service}. ${group.sentence}`;
  if (text === state.announced) return;
  Object.assign(state, { announced: text, announcedAt: now });
  byId("announce").textContent = text;
}

// ---- Slaves and masters

// Shows octets, of many the first ones only, with a mark on those that are fresh.
function octetsNode(pairs, isFresh) {
  if (pairs.length === 0) return soft("none");
  const parts = [""], changed = isFresh.slice(MOST_OCTETS).filter(Boolean).length;
  pairs.slice(0, MOST_OCTETS).forEach((pair, at) => {
    if (isFresh[at]) parts.push(make("mark", {}, pair), " ");
    else parts[parts.length - 1] += `${pair} `;
  });
  if (pairs.length > MOST_OCTETS) parts.push(`.. ${pairs.length - MOST_OCTETS} more`);
  if (changed > 0) parts.push(make("mark", {}, `, ${changed} changed`));
  return make("span", { class: "octets", title: `${pairs.length} octets: ${pairs.join(" ")}` }, parts);
}

// Shows octets of a slave. Those that changed in the last second are fresh.
function octetsOf(record, slave, key) {
  const now = performance.now();
  const isFresh = record.octets.get(`${slave.address} ${key}`).times.map(time => now - time < FRESH);
  if (isFresh.includes(true)) state.marked = true;
  return octetsNode(pairsOf(slave[key]), isFresh);
}

// Shows octets, and below them others with their name if they differ.
function octetsCell(record, slave, key, otherKey, name) {
  return make("td", {}, octetsOf(record, slave, key), slave[key] === slave[otherKey] ? null
    : make("div", { class: "soft" }, `${name} `, octetsOf(record, slave, otherKey)));
}

function holderCell(line, slave) {
  const lists = [["lockers", slave.lockers], ["readers", slave.readers]].filter(([, list]) => list !== null);
  const release = slave.release === null || slave.holder !== null ? ""
    : `released at entry ${slave.release.place}: ${slave.release.ending}`;
  const rows = [release, lists.map(([name, list]) => `${name} ${list.join(", ") || "none"}`).join(" · ")];
  const since = slave.holder === null ? "" : ` since entry ${slave.since}`;
  return make("td", {}, masterChip(line, slave.holder), soft(since),
    rows.filter(text => text !== "").map(text => make("div", { class: "soft" }, text)));
}

function watchdogCell(slave) {
  if (slave.left === null) return make("td", {}, soft("off"));
  const meter = make("meter", {
    min: 0, max: slave.full, low: slave.full / 4, optimum: slave.full, value: slave.left, "aria-hidden": "true",
  });
  return make("td", { class: "watchdog" }, meter, soft(` ${grouped(slave.left * 10)} of ${milliseconds(slave.full)}`));
}

// Returns flags for the words that hold, each given with whether it does and its class.
const flagsOf = words => words.filter(([isSet]) => isSet)
  .map(([, word, kind]) => [make("span", { class: `flag ${kind}` }, word), " "]);

function diagnosisCell(slave) {
  const seen = slave.diagnosis;
  const flags = flagsOf([[seen.prm_fault, "Prm_Fault", "bad"], [seen.cfg_fault, "Cfg_Fault", "bad"],
    [seen.not_supported, "Not_Supported", "bad"], [seen.ext_diag, "Ext_Diag", "bad"],
    [seen.stat_diag, "Stat_Diag", "mild"], [seen.overflow, "Ext_Diag_Overflow", "mild"],
    [seen.unread, "unread", "mild"]]);
  if (flags.length === 0 && seen.octets === "") return make("td", {}, soft("–"));
  return make("td", {}, flags, seen.octets === "" ? null : octetsNode(pairsOf(seen.octets), []));
}

// Shows modes, groups, access points that are busy, and what the slave supports.
function modesCell(slave) {
  const groups = [1, 2, 3, 4, 5, 6, 7, 8].filter(number => slave.group >> (number - 1) & 1);
  const flags = flagsOf([[slave.sync, "Sync", "mild"], [slave.freeze, "Freeze", "mild"],
    [slave.cleared, "cleared", "mild"], [groups.length > 0, plural("group", groups), ""],
    ...slave.busy.map(point => [true, `${POINTS.get(point) ?? `point ${point}`} busy`, "bad"])]);
  const supported = [[slave.has_sync, "has Sync"], [slave.has_freeze, "has Freeze"], [slave.failsafe, "fail-safe"],
    [true, `min TSDR ${slave.min_tsdr}`]].filter(([isSet]) => isSet).map(([, word]) => word);
  return make("td", {}, flags, make("div", { class: "soft" }, supported.join(", ")));
}

function drawSlaves(record) {
  const line = record.now;
  show("slaves", tableHead("Slave", "Ident", "State", "Held by", "Watchdog", "Inputs", "Outputs", "Diagnosis", "Modes"),
    make("tbody", {}, line.slaves.map(slave => make("tr", {}, make("th", { scope: "row" }, String(slave.address)),
      make("td", { class: "octets" }, slave.ident), make("td", {}, stateBadge(slave.state)), holderCell(line, slave),
      watchdogCell(slave), octetsCell(record, slave, "shown", "inputs", "device"),
      octetsCell(record, slave, "outputs", "latest", "latest"), diagnosisCell(slave), modesCell(slave)))));
}

function masterRow(line, { address, holds, ways }) {
  const total = counted => grouped(counted.reduce((sum, { count }) => sum + count, 0));
  const words = ways.map(({ way, count, fault }) =>
    [make("span", { class: fault ? "bad" : null }, `${fault ? "✕ " : ""}${way} ${grouped(count)}`), " "]);
  const held = holds.length === 0 ? soft("no slave") : plural("slave", holds);
  return make("tr", {}, make("th", { scope: "row" }, address === null ? "others" : masterChip(line, address)),
    make("td", {}, held, make("div", { class: "ways" }, words)),
    ...[ways, ways.filter(way => way.fault)].map(counted => make("td", { class: "number" }, total(counted))));
}

function drawMasters(line) {
  const masters = line.masters.filter(master => master.address !== null || master.ways.length > 0);
  show("masters", tableHead("Master", "Holds, oldest lock first", "#Requests", "#Faults"),
    make("tbody", {}, masters.map(master => masterRow(line, master))));
}

// ---- Entries

// Offers addresses in a filter; the chosen one stays if it is still there.
function offerAddresses(id, noun, addresses) {
  const select = byId(id), values = ["", ...addresses.map(String)];
  if ([...select.options].map(option => option.value).join() === values.join()) return;
  const chosen = select.value;
  select.replaceChildren(...values.map(value => make("option", { value }, value === "" ? "each" : `${noun} ${value}`)));
  select.value = values.includes(chosen) ? chosen : "";
}

const KINDS = {
  news: entry => !entry.routine, all: () => true, refused: entry => entry.refused, faults: entry => entry.fault,
  changes: entry => entry.changes.length > 0,
};

// Returns the test of an entry by the filters.
function chosenFilter() {
  const [kind, master, slave, text] = ["f-kind", "f-master", "f-slave", "f-text"].map(id => byId(id).value);
  const searched = text.trim().toLowerCase();
  return entry => KINDS[kind](entry) && (master === "" || String(entry.master) === master)
    && (slave === "" || concerns(entry, Number(slave))) && entry.searched.includes(searched);
}

function entryNode(entry) {
  if (entry.note !== undefined) return make("p", { class: "note" }, entry.note);
  const kind = entry.refused ? "refused" : entry.fault ? "fault" : entry.changes.length > 0 ? "changed" : null;
  return make("details", { class: kind }, make("summary", {},
    make("span", { class: "place" }, String(entry.place)), make("span", {}, entry.who),
    make("span", { class: "service", title: entry.event.words }, entry.service),
    make("span", { class: "result" }, entry.result)));
}

// Returns the fields of an entry as rows of a name and a text.
function fieldsOf(entry) {
  const { event } = entry, octets = entry.from === "master" ? pairsOf(event.octets).join(" ") || "none" : "";
  const points = [["DSAP", event.dsap ?? null], ["SSAP", event.ssap ?? null]].filter(([, point]) => point !== null);
  return [["entry", entryName(entry)], ["time", entry.time === null ? "" : milliseconds(entry.time)],
    ["kind", event.words], ["points", points.map(([name, point]) => `${name} ${point}`).join(", ")],
    ["octets", octets],
    ...decodedRows(entry), ["rule", entry.rule ?? ""], ["refused", entry.refused ? "yes" : "no"],
    ["fault", entry.fault ? "yes" : "no"], ["sentence", entry.sentence],
    ...entry.slaves.map(answer => [`slave ${answer.slave}`, `${answer.rule}. ${answer.sentence}`]),
    ["reply", replyOf(entry)], ...entry.changes.map(change => ["change", changeText(change)])];
}

// Shows the fields of an entry when it is opened for the first time.
function fillEntry(node) {
  if (node.open && node.querySelector("dl") === null) node.append(fieldList(fieldsOf(entryOfNode.get(node))));
}

// Makes the list have these entries, the newest first. Entries that are in it already keep their nodes.
function arrangeEntries(list, entries) {
  const wanted = new Set(entries);
  for (const node of [...list.children]) if (!wanted.has(entryOfNode.get(node))) node.remove();
  let cursor = list.firstElementChild;
  for (const entry of entries) {
    if (entryOfNode.get(cursor) === entry) cursor = cursor.nextElementSibling;
    else entryOfNode.set(list.insertBefore(entryNode(entry), cursor), entry);
  }
  if (entries.length === 0) list.append(make("p", { class: "none" }, "No entry on this page matches the filters."));
}

const isBeingRead = list => list.scrollTop > 4 || list.querySelector("details[open]") !== null;

// Draws the list of entries. If a reader scrolled or opened one, it is left alone, unless it is forced.
function drawEntries(record, isForced) {
  const list = byId("stream"), line = record.now, caption = byId("shown").firstElementChild;
  offerAddresses("f-master", "master", mastersOf(line));
  offerAddresses("f-slave", "slave", line.slaves.map(slave => slave.address));
  const passing = record.entries.filter(chosenFilter()), isHeld = !isForced && isBeingRead(list);
  byId("newest").hidden = !isHeld;
  if (isHeld) {
    const newer = passing.filter(entry => entry.number > state.newestShown).length;
    caption.textContent = `The list waits while you scroll or read an entry. Newer entries: ${newer}.`;
    return;
  }
  const shown = passing.slice(-MOST_ENTRIES).reverse();
  state.newestShown = record.entries.at(-1)?.number ?? 0;
  arrangeEntries(list, shown);
  const kept = record.entries.filter(entry => entry.note === undefined && entry.text === textName(line.file)).length;
  const hidden = byId("f-kind").value === "news"
    ? " Data_Exchange, inputs and ticks that did nothing else are hidden." : "";
  const numbers = `${shown.length} shown, newest first. This page has ${kept} of ${grouped(line.count)}.`;
  caption.textContent = numbers + hidden;
}

// Shows the newest entries to a reader who scrolled or opened one.
function showNewest() {
  const list = byId("stream");
  for (const node of list.querySelectorAll("details[open]")) node.open = false;
  list.scrollTop = 0;
  draw(true);
}

function drawFoot(record) {
  const first = firstKept(record), command = rackdCommand("explain", record.now);
  if (first === 0) show("foot");
  else if (first === 1) show("foot", "This page has every entry of this text. In a terminal: ", code(command));
  else show("foot", "Entries before those on this page: ", code(`${command} --to ${first - 1}`));
}

// ---- Drawing

// Draws the chosen line, or all lines. The list of entries is left alone while it is read, unless it is forced.
function draw(isForced) {
  const record = drawnLines().get(state.line);
  drawStatus();
  byId("main").classList.toggle("all", state.line === ALL);
  Object.assign(state, { drawnAt: performance.now(), marked: false });
  if (record === undefined) return;
  drawSource(record.now);
  drawMatrix(record.now);
  drawReason(record);
  drawGroups(record, "refusals", true, "Rule");
  drawGroups(record, "faults", false, "Fault");
  drawSlaves(record);
  drawMasters(record.now);
  drawEntries(record, isForced);
  drawFoot(record);
  announceRefusal(record);
}

// ---- What the reader does

function showLine(line) {
  Object.assign(state, { line, cell: null, group: null });
  draw(true);
}

// Chooses a line, or all lines. The browser's Back goes back to what was chosen before.
function chooseLine(line) {
  const isInTable = byId("all-part").contains(document.activeElement);
  if (line !== state.line) history.pushState(null, "", line === ALL ? "#lines" : `#line=${line}`);
  showLine(line);
  // The row that had the focus is not shown any more, so that the button of its line gets it.
  if (isInTable) byId("lines").querySelector(`[data-line="${line}"]`).focus();
}

// Chooses a cell of the matrix, or no cell if it is chosen already.
function chooseCell(name) {
  state.cell = name === state.cell ? null : name;
  state.tabCell = name ?? state.tabCell;
  draw(false);
}

function foldOrUnfold() {
  state.isUnfolded = !state.isUnfolded;
  draw(false);
}

function pauseOrContinue() {
  const copies = [...state.lines].map(([number, record]) => [number, copyOf(record)]);
  state.frozen = state.frozen === null ? new Map(copies) : null;
  draw(false);
}

function onClick(event) {
  const chosen = name => event.target.closest(`[data-${name}]`)?.getAttribute(`data-${name}`) ?? null;
  const line = chosen("line"), cell = chosen("cell"), group = chosen("group");
  if (line !== null) chooseLine(line === ALL ? ALL : Number(line));
  if (cell !== null) chooseCell(cell);
  if (chosen("fold") !== null) foldOrUnfold();
  if (group === null) return;
  state.group = group === "" ? null : group;
  draw(false);
}

// Moves the focus in the matrix by the arrow keys; Escape chooses no cell.
function onMatrixKey(event) {
  if (event.key === "Escape") chooseCell(null);
  const steps = { ArrowLeft: [0, -1], ArrowRight: [0, 1], ArrowUp: [-1, 0], ArrowDown: [1, 0] };
  const step = steps[event.key], cell = event.target.closest("td");
  if (step === undefined || cell === null) return;
  event.preventDefault();
  const row = cell.closest("tbody").rows[cell.parentNode.sectionRowIndex + step[0]];
  const next = row?.cells[cell.cellIndex + step[1]]?.querySelector("button") ?? null;
  if (next === null) return;
  state.tabCell = next.dataset.cell;
  event.target.tabIndex = -1;
  next.tabIndex = 0;
  next.focus();
}

function listen() {
  document.addEventListener("click", onClick);
  window.addEventListener("popstate", () => state.line === null || showLine(namedLine()));
  byId("matrix").addEventListener("keydown", onMatrixKey);
  byId("pause").addEventListener("click", pauseOrContinue);
  byId("newest").addEventListener("click", showNewest);
  byId("stream").addEventListener("toggle", event => fillEntry(event.target), true);
  byId("filters").addEventListener("input", () => draw(true));
  byId("filters").addEventListener("submit", event => event.preventDefault());
  byId("filters").addEventListener("reset", () => setTimeout(draw, 0, true));
}

// ---- Asking the watch

// Returns the next answer of the watch; null if it does not answer.
async function fetchAnswer() {
  try {
    const path = `/state.json?run=${state.run}&after=${state.number}`;
    const response = await fetch(path, { cache: "no-store", signal: AbortSignal.timeout(TIMEOUT) });
    return response.ok ? await response.json() : null;
  } catch {
    return null;
  }
}

// Takes an answer, null if there is none, and draws what changed.
function drawAnswer(answer) {
  state.lost = answer === null;
  const isChanged = answer !== null && takeAnswer(answer);
  const isDue = isChanged || state.marked || performance.now() - state.drawnAt > REDRAW;
  if (state.frozen === null && !state.lost && isDue) draw(false);
  else drawStatus();
}

// Asks the watch repeatedly, and less often if it takes long to draw what changed.
async function follow() {
  const answer = await fetchAnswer(), start = performance.now();
  try {
    drawAnswer(answer);
    // The browser lays the page out now, so that the time for it counts.
    document.body.getBoundingClientRect();
  } finally {
    const rest = Math.min(Math.max(PERIOD, REST * (performance.now() - start)), LONGEST_PERIOD);
    setTimeout(follow, answer === null ? RETRY : rest);
  }
}

listen();
follow();
