"""Audit texts in files: their names, their rows, and what they have of clients."""
import re


def text_name(line=1, number=1):
    """Returns the name of an audit text in one file."""
    return f"line-{line}-{number}.audit"


def part_name(part, line=1, number=1):
    """Returns the name of a part of an audit text."""
    return f"line-{line}-{number}.{part:06}.audit"


def times_name(name):
    """Returns the name of the file of times beside the file of an audit text with this name."""
    return name[:-len(".audit")] + ".times"


def header(line=1, version=2):
    """Returns the first row of an audit text."""
    return f"rack-audit {version} line {line}\n".encode()


def contents(folder):
    """Returns the files of a folder by their names, without files of times."""
    return {path.name: path.read_bytes() for path in folder.iterdir() if path.suffix != ".times"}


def names(folder):
    """Returns the names in a folder, sorted, without those of files of times."""
    return sorted(path.name for path in folder.iterdir() if path.suffix != ".times")


def time_rows(path, line=1):
    """Returns the places and the milliseconds of the whole rows of a file of times; none if it is not there yet."""
    if not path.exists():
        return []
    head, *rows = whole_rows(path.read_bytes()).decode("ascii").splitlines() or [""]
    assert head in ("", f"rack-times 1 line {line}")
    assert all(re.fullmatch("[1-9][0-9]* [1-9][0-9]*", row) for row in rows)
    return [tuple(int(number) for number in row.split(" ")) for row in rows]


def write_files(folder, texts):
    """Makes a folder with these files by their names."""
    folder.mkdir()
    for name, text in texts.items():
        (folder / name).write_bytes(text)


def whole_rows(text):
    """Returns the whole rows of a text, without a last one that is cut."""
    return text[:text.rfind(b"\n") + 1]


def events(text):
    """Returns the words of the event and of the outcome of each entry of an audit text of whole rows in one file."""
    head, *rows = text.decode("ascii").split("\n")
    assert re.fullmatch("rack-audit [23] line [0-9]+", head)
    assert rows and rows.pop() == "", "the last row has no LF"
    found = []
    for place, row in enumerate(rows, 1):
        event, _, outcome = row.split(" | ")
        number, *words = event.split(" ")
        assert number == str(place), row
        found.append((words, outcome.split(" ")))
    return found


def said_by(text, master):
    """Returns what an audit text has of a master: its telegrams, and all octets of the replies to them."""
    own = [(event[2], outcome) for event, outcome in events(text) if event[:2] == ["req", str(master)]]
    replies = [bytes.fromhex(outcome[1]) for _, outcome in own if outcome[0] == "reply"]
    return [bytes.fromhex(octets) for octets, _ in own], b"".join(replies)


def commands(text):
    """Returns the commands of operators that an audit text has the entries of."""
    return [" ".join(event) for event, _ in events(text) if event[0] != "req"]
