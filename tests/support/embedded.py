"""Scripts that are played on a rack in process, and compilers."""
import re
import shutil

import pytest

from support.repository import TOP

# the scripts of the stored runs and of the examples
RUNS = sorted((TOP / "tests" / "runs").glob("*/*.script"))
EXAMPLES = sorted(path for path in (TOP / "examples").glob("*.txt") if "\n%%\n" in path.read_text(encoding="utf-8"))
# the number of a line in a rack file
NUMBER = re.compile(r"^number *= *(\d+)", re.MULTILINE)


def find(compiler):
    """Returns the path of a program, and skips the test if it is not installed."""
    found = shutil.which(compiler)
    if found is None:
        pytest.skip(f"{compiler} is not installed")
    return found


def ids(paths):
    """Returns a name for each script."""
    return [f"{path.parent.name}-{path.stem}" for path in paths]


def input_of(path):
    """Returns the text of the rack file and the script of a stored run or an example."""
    text = path.read_text(encoding="utf-8")
    if path.suffix == ".script":
        return (path.parent / "rack.toml").read_text(encoding="utf-8") + "\n", text
    rack, _, script = text.partition("\n%%\n")
    return rack + "\n", script


class NoCommand(Exception):
    """A line of a script is no command, or can't be obeyed."""


class Player:
    """Plays a script on an `EmbeddedRack`, and writes what `rackd run` writes (docs/reference/scripts.md)."""

    def __init__(self, rack):
        self.rack, self.numbers = rack, [int(number) for number in NUMBER.findall(rack.text.decode())]
        self.chosen = self.numbers[0]

    def play(self, script):
        """Returns the texts of the lines, and the number of the line at which the script stops, or None."""
        texts = []
        for number, line in enumerate(script.split("\n")[:-1] if script.endswith("\n") else script.split("\n"), 1):
            try:
                texts.append(self.obey(line))
            except NoCommand:
                return "".join(texts), number
        return "".join(texts), None

    def obey(self, line):
        """Returns the text of one line."""
        words = line.split(" ")
        if words[0] == "m":
            return self.send(words)
        if words[0] == "line":
            return self.choose(words)
        if words[0] == "journal":
            if len(words) > 1:
                raise NoCommand
            return self.rack.audit(self.chosen).decode()
        answer = self.rack.operate(self.chosen, line.encode()).decode()
        if answer.startswith("fault "):
            raise NoCommand
        return answer

    def choose(self, words):
        if len(words) != 2 or not words[1].isdigit() or int(words[1]) not in self.numbers:
            raise NoCommand
        self.chosen = int(words[1])
        return ""

    def send(self, words):
        try:
            master, octets = int(words[1]), b"".join(bytes.fromhex(word) for word in words[2:])
        except (ValueError, IndexError):
            raise NoCommand from None
        if len(words) < 3 or not all(words[2:]) or self.rack.feed(self.chosen, master, b"") is None:
            raise NoCommand
        text = ""
        while octets:
            octets = octets[self.rack.feed(self.chosen, master, octets):]
            while (piece := self.rack.next_piece(self.chosen, master)) is not None:
                text += f"{master}: {self.answer(piece)}\n"
        return text

    def answer(self, piece):
        """Returns the text of an answer: that of its entry, or of its rule if it has none."""
        if piece.fault:
            return f"dropped {piece.fault} {piece.dropped}"
        if piece.place is None:
            return f"silence {piece.rule}"
        return self.rack.row(self.chosen, piece.place).decode().rstrip("\n").split(" | ")[2]
