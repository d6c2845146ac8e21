"""Follows a document as a reader does: runs the commands of its code in terminals, and compares what comes back.

A block of code is one of these:
- commands, and below an empty line what comes back. Two dots are any lines, or at the end of a line any text;
- a text to save, if the paragraph before it says `Save this as NAME`, or `it`, or `these ten lines`;
- what a program writes that was started before, if the paragraph before it ends with `The cable writes:`;
- what the commands before it wrote, if that paragraph ends with a sentence of the form `It prints the reply:`.
A table with the head `Type | Comes back` has commands too. Commands run in the second, third or fourth terminal if the text before them
names it, and stay there until the next heading; otherwise they run in a terminal that is free. A program that stays, such as a server,
has a terminal of its own. Text of the form "Type `lose 5 1` in the terminal of the cable" is typed there.
"""
import os
import random
import re
import signal
import socket
import subprocess
from pathlib import Path
from typing import NamedTuple, Optional

from support.clients import wait_for
from support.processes import PATIENCE
from support.running import Running, Stream

# What begins a program that stays, its name in the text, and what it writes once it is ready.
STAYING = {"rackd serve": ("rack", "ready"), "rackd cable": ("cable", "ready"), "rackd watch": ("watch", "watching at "),
           "examples/serve/serial-bridge.py": ("bridge", None)}
TERMINALS = r"\b((?:second|third|fourth)(?: and (?:second|third|fourth))*) terminal\b"
TYPED = re.compile(r"Type `([^`]+)` in the terminal of the (\w+)")
SAVED = re.compile(r"\b[Ss]ave (?:this|it|these \w+ lines) as\s+`?(\w[\w.-]*\w)`?")
SAID = re.compile(r"The (\w+) writes:$")
PRINTED = re.compile(r"(?:^|[.;]\s+)It prints\b[^.`]*:$")
# Ports that programs of a document listen at are from here to below the ones that the system chooses.
PORTS = range(20000, 30000)


class Step(NamedTuple):
    """A step of a document: where it is, the text before it, the commands or the text to save, and what comes back."""

    number: int
    heading: str
    before: str
    text: str
    shown: Optional[str] = None
    is_row: bool = False


def of_commands(step, table):
    """Returns the values of a table whose keys begin the commands of a step; `rackd` may be in this folder or on the PATH."""
    return [value for words, value in table.items() if step.text.removeprefix("./").startswith(words)]


class Fault(AssertionError):
    """A step that doesn't do what the document says."""


def code_at(lines, at):
    """Returns the lines of the block of code that begins at a line, without the four blanks in front."""
    block = []
    while at < len(lines) and (lines[at].startswith("    ") or not lines[at].strip()):
        block.append(lines[at][4:])
        at += 1
    while not block[-1].strip():
        block.pop()
    return block


def row_of_table(line, head):
    """Returns the command and what comes back of a row of a table; None for another row."""
    found = re.match(r"\| `([^`]+)` \| `([^`]+)` \|", line)
    return found.groups() if found and re.match(r"\|\s*Type\s*\|\s*Comes back\s*\|", head) else None


def steps_of(document):
    """Yields the steps of a document, in its order."""
    lines = document.split("\n")
    heading, before, head, at = "", [], "", 0
    while at < len(lines):
        line = lines[at]
        row = row_of_table(line, head)
        if line.startswith("#"):
            heading, before = line.lstrip("# "), []
        elif row:
            yield Step(at + 1, heading, "\n".join(before), *row, is_row=True)
            before = []
        elif line.startswith("    ") and (not lines[at - 1].strip() or lines[at - 1].startswith("#")):
            block = code_at(lines, at)
            yield step_of(at + 1, heading, "\n".join(before), block)
            before, at = [], at + len(block) - 1
        else:
            before.append(line)
        head = "" if not line.startswith("|") else head or line
        at += 1


def last_paragraph(text):
    """Returns the last paragraph of a text."""
    return text.strip().split("\n\n")[-1]


def step_of(number, heading, before, block):
    """Returns the step of a block of code."""
    text = "\n".join(block)
    last = last_paragraph(before)
    if SAVED.search(last):
        return Step(number, heading, before, text)
    if SAID.search(last) or PRINTED.search(last):
        return Step(number, heading, before, "", text)
    commands, _, shown = text.partition("\n\n")
    return Step(number, heading, before, commands, shown or None)


def is_shown(shown, found):
    """Returns whether what came back is what a document shows."""
    rows = [re.escape(row.rstrip()) for row in shown.rstrip("\n").split("\n")]
    pattern = ""
    for row in rows:
        if row.strip() in (r"\.\.", r"\.\.\."):
            pattern += r"(?:.*\n)*?"
        else:
            pattern += (row[:-4] + ".*" if row.endswith(r"\.\.") else row) + "\n"
    text = "".join(f"{row.rstrip()}\n" for row in found.rstrip("\n").split("\n"))
    return re.fullmatch(pattern, text) is not None


class Terminal:
    """A terminal of the reader: a bash that stays, with the functions and connections that commands before have made."""

    MARK = "--- the step has ended with"

    def __init__(self, folder, environment):
        self.folder, self.at = Path(folder), 0
        self.bash = subprocess.Popen(["bash", "--noprofile", "--norc"], cwd=folder, env=environment, bufsize=0,
                                     stdin=subprocess.PIPE, stdout=subprocess.PIPE, stderr=subprocess.STDOUT)
        self.output = Stream(self.bash.stdout)

    def run(self, commands, steps, within):
        """Runs commands, and returns their status and what they write."""
        self.at += 1
        script = Path(steps, f"{self.bash.pid}-{self.at}")
        script.write_text(f"{commands}\n", encoding="utf-8")
        self.bash.stdin.write(f". {script} </dev/null; printf '\\n%s %d\\n' '{self.MARK}' $?\n".encode())
        rows = []
        while not rows or not rows[-1].startswith(self.MARK):
            rows.append(self.output.row(within))
        text = "".join(f"{row}\n" for row in rows[:-1])
        return int(rows[-1].rsplit(" ", 1)[1]), text.removesuffix("\n")

    def close(self):
        self.bash.kill()
        self.bash.wait()
        self.bash.stdin.close()
        self.bash.stdout.close()


def free_ports(count):
    """Returns ports at which nothing listens, and that the system doesn't choose for others."""
    found = []
    for port in random.sample(PORTS, len(PORTS)):
        with socket.socket() as one:
            try:
                one.bind(("127.0.0.1", port))
            except OSError:
                continue
        found.append(port)
        if len(found) == count:
            return found
    raise Fault("no port is free")


class Reader:
    """Follows a document in a folder.

    `varying` are patterns of what differs each time and what stands in its place, and `statuses` other statuses than 0, both by
    how the commands begin.
    """

    def __init__(self, folder, steps, environment, *, varying=None, statuses=None, within=PATIENCE):
        self.folder, self.steps, self.environment, self.within = Path(folder), Path(steps), environment, within
        self.varying, self.statuses = varying or {}, statuses or {}
        self.terminals, self.staying, self.names, self.heading, self.last = {}, {}, ["free"], None, ""

    def close(self):
        """Ends all terminals and programs."""
        for terminal in self.terminals.values():
            terminal.close()
        for program in self.staying.values():
            program.kill()

    def terminal(self, name):
        if name not in self.terminals:
            self.terminals[name] = Terminal(self.folder, self.environment)
        return self.terminals[name]

    def follow(self, step):
        """Follows a step. A Fault says what is not as the document says."""
        self.choose_terminals(step)
        for text, name in TYPED.findall(step.before):
            self.staying[name].write(f"{text}\n".encode())
        before = last_paragraph(step.before)
        saved, said = SAVED.search(before), SAID.search(before)
        staying = of_commands(step, STAYING)
        if saved:
            (self.folder / saved[1]).write_text(f"{step.text}\n", encoding="utf-8")
        elif said:
            self.compare(step, self.written_by(said[1], step.shown))
        elif PRINTED.search(before):
            self.compare(step, self.last)
        elif staying:
            self.start(step, *staying[0])
        else:
            self.run(step)

    def choose_terminals(self, step):
        """Chooses the terminals that the text before a step names."""
        if step.heading != self.heading:
            self.heading, self.names = step.heading, ["free"]
        named = re.findall(TERMINALS, re.sub(r"\s+", " ", step.before))
        if named:
            self.names = named[-1].split(" and ")

    def run(self, step):
        wanted = next(iter(of_commands(step, self.statuses)), 0)
        for name in self.names:
            status, found = self.terminal(name).run(step.text, self.steps, self.within)
            self.last = found
            if status != wanted:
                raise Fault(f"line {step.number}: {step.text}\nends with status {status}, not {wanted}, and writes\n{found}")
            if step.shown is not None:
                self.compare(step, found)

    def start(self, step, name, ready):
        """Starts a program that stays. One of its kind that runs has to be stopped by then, as the text says."""
        if name in self.staying:
            if f"top the {name}" not in step.before:
                raise Fault(f"line {step.number}: the document doesn't say to stop the {name} that runs")
            self.stop(name)
        program = Running(["env", "--default-signal=INT", "-i", "-C", self.folder, *[f"{key}={value}" for key, value in self.environment.items()],
                           "bash", "-c", f"exec {step.text}"])
        self.staying[name] = program
        if ready is None:
            link = self.folder / step.text.split()[1]
            wait_for(link.exists)
            return
        rows = [program.output.row(self.within)]
        while not rows[-1].startswith(ready):
            rows.append(program.output.row(self.within))
        if step.shown is not None:
            self.compare(step, "\n".join(rows))

    def stop(self, name):
        """Stops a program as Ctrl-C does."""
        program = self.staying.pop(name)
        program.send_signal(signal.SIGINT)
        program.wait(self.within)
        program.kill()

    def written_by(self, name, shown):
        """Returns as many rows as are shown, of what a program that stays writes: first standard output, then standard error."""
        program, rows = self.staying[name], []
        for row in shown.split("\n"):
            stream = program.errors if rows else program.output
            rows.append(stream.row(self.within))
        return "\n".join(rows)

    def compare(self, step, found):
        """Compares what came back with what the document shows. A cell of a table has no blanks in front."""
        shown, text = step.shown, found.strip() if step.is_row else found
        for pattern, same in [pair for pairs in of_commands(step, self.varying) for pair in pairs]:
            shown, text = re.sub(pattern, same, shown), re.sub(pattern, same, text)
        if not is_shown(shown, text):
            raise Fault(f"line {step.number}: {step.text}\nwrites\n{found}\nbut the document shows\n{step.shown}")


def environment_without(*names, path):
    """Returns the environment without these variables, and with a folder in front of the PATH."""
    kept = {key: value for key, value in os.environ.items() if key not in names}
    return {**kept, "PATH": f"{path}{os.pathsep}{kept['PATH']}"}
