"""Reading of documents in Markdown, and checks of what they say about the repository. Each check returns faults."""
import re

LONGEST_LINE = 120
# Names that a user makes, or that are of another program.
FOREIGN = {"sched_autogroup_enabled", "line_N", "MODULE_WHAT_IT_DOES", "dp_trial", "start_lib", "callgrind_annotate", "fcs_good"}
FOLDERS = ("crates/", "docs/", "tests/", "examples/", "python/", "dist/", ".ci/")
PARTS = ("specs/", "src/", "proofs/", "must-fail/")
ENDS = (".rt", ".antt", ".md", ".sh", ".py", ".toml", ".tsv", ".txt", ".service", ".audit", ".explained")
ITEM = re.compile(r"\s*([-*]|\d+\.) ")
WORD = re.compile(r"[A-Za-z_][A-Za-z0-9_]*")
PLACE = re.compile(r"((?:`[\w:]+`(?:, | and |, and )?)+)\s+(?:of|in)\s+`((?:crates|tests|docs|dist|examples)/[\w./-]+)`")
COMMAND = re.compile(r"(?:^|[\s`'\"(|&;$])(?:\./)?rackd ([a-z]+)\b")


def kind_of(line, before):
    """Returns what a line outside of a fence belongs to, if that of the line before is known."""
    if line.startswith("    ") and before in (None, "code", "head"):
        return "code"
    if not line.strip():
        return None
    if line.startswith("#"):
        return "head"
    if line.lstrip().startswith("|"):
        return "table"
    if ITEM.match(line):
        return "item"
    return before if before in ("item", "text") else "text"


def blocks_of(text):
    """Yields the parts of a document: their kind, the number of their first line, and their lines."""
    fenced, block, kind, start = False, [], None, 0
    for number, line in enumerate([*text.rstrip("\n").split("\n"), ""], 1):
        fence = line.startswith("```")
        fenced = fenced != fence
        new = "code" if fenced or fence else kind_of(line, kind)
        if new != kind or new == "head" or (new == "item" and ITEM.match(line)):
            if block and kind:
                yield kind, start, block
            block, kind, start = [], new, number
        block.append(line)


def prose_of(text):
    """Returns a document without its indented code."""
    return re.sub(r"\n    [^\n]*", "\n", text)


def names_of(text):
    """Yields what stands between backticks outside of code, on one line or two."""
    for match in re.finditer(r"`([^`\n]+(?:\n[^`\n]+)?)`", prose_of(text)):
        yield match.group(1).replace("\n", " ")


def long_lines(text):
    """Returns the lines that are too long; rows of tables may have any length."""
    return [f"line {number}: {len(line)} characters" for kind, start, block in blocks_of(text) if kind != "table"
            for number, line in enumerate(block, start) if len(line) > LONGEST_LINE]


def sentences_of_first_paragraph(text):
    """Returns the number of sentences of the first paragraph."""
    first = next(block for kind, _, block in blocks_of(text) if kind in ("text", "item"))
    return len(re.findall(r"[.!?](\s|$)", re.sub(r"`[^`]*`", "x", " ".join(first))))


def is_missing(path, top, sources):
    """Returns whether what looks like a path of the repository is not there."""
    if re.search("NAME|MODULE|/out", path):
        return False
    if re.fullmatch(r"[\w./-]+", path) and path.startswith(FOLDERS):
        return not (top / path).exists()
    if re.fullmatch(r"[\w./-]+", path) and path.startswith(PARTS):
        return not any(name.endswith("/" + path) or f"/{path}/" in name for name in sources)
    if re.fullmatch(r"[\w-][\w.-]*", path) and path.endswith(ENDS) and "line-" not in path:
        return not (top / path).exists() and not any(name.endswith("/" + path) for name in sources)
    return False


def missing_paths(text, folder, top, sources):
    """Returns the paths between backticks and of links that are not there; those of links are relative to the document."""
    named = [name for name in names_of(text) if is_missing(name.split(" ")[0].rstrip("/"), top, sources)]
    linked = [path for path in re.findall(r"\]\(([^)#]+)\)", prose_of(text))
              if not path.startswith("http") and not (top / folder / path).exists()]
    return named + linked


def unknown_names(text, words):
    """Returns the names with an underscore between backticks that no source has."""
    return [word for name in names_of(text) for word in WORD.findall(name)
            if "_" in word.strip("_") and not word.startswith("_") and word not in words | FOREIGN and "NAME" not in word]


def misplaced_names(text, sources):
    """Returns the names that are not in the path that is said to have them."""
    faults = []
    for match in PLACE.finditer(prose_of(text)):
        path = match.group(2).rstrip("/")
        inside = [content for name, content in sources.items() if name == path or name.startswith(path + "/")]
        for name in re.findall(r"`([\w:]+)`", match.group(1)):
            last = name.split("::")[-1]
            if inside and not any(re.search(rf"\b{re.escape(last)}\b", content) for content in inside) \
                    and not any(last in other for other in sources if other.startswith(path)):
                faults.append(f"{name} is not in {path}")
    return faults


def wrong_commands(text, top, words):
    """Returns what commands name that is not there: files in lines of code, and words of rackd in code or between backticks."""
    code = [line for kind, _, block in blocks_of(text) if kind == "code" for line in block]
    paths = [path for line in code for path in re.split(r"[\s'\"`=();|<>&]+", line)
             if path.removeprefix("./").startswith(FOLDERS)]
    faults = [f"no such path: {path}" for path in paths
              if re.fullmatch(r"[\w./-]+", path) and not re.search("NAME|MODULE|/out", path) and not (top / path).exists()]
    named = [word for command in (*code, *names_of(text)) for word in COMMAND.findall(command)]
    return faults + [f"no such word of rackd: {word}" for word in named if word not in words]
