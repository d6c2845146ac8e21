"""The crates: their list, the heads of their sources, what is said about them, and their use of threads, sockets and files."""
import itertools
import re

from support.documents import blocks_of

# Crates that may use threads, sockets or files, and why. Those named *_host, serve_* and test_* may too.
USERS = {
    "audit_files": "makes and deletes the files of audit texts",
    "audit_trail": "implements its trait WriteParts for a File that it is given, and opens none",
    "dp_sessions": "has the pool of workers",
    "dp_shared": "yields while another thread has the lock of a line",
    "rackd": "is the program",
    "watch_page": "implements the trait Service of http_server, and opens no sockets",
}
USER = re.compile(r"\w+_host|(serve|test)_\w+|" + "|".join(USERS))
USE = re.compile(r"\bstd::(?:\{[^;]*?\b)?(?:thread|net|fs)\b|\b(?:crossbeam_channel|http_server)\b")
LIBRARIES = ("crossbeam_channel", "http_server")


def may_use(crate):
    """Returns whether a crate may use threads, sockets or files."""
    return USER.fullmatch(crate) is not None


def crates_of_list(text):
    """Returns the crates of crates.txt: the name of each, its group, and what it stands on."""
    group, crates = None, []
    for line in text.split("\n"):
        if line.startswith("#"):
            group = line[1:].strip()
        elif line:
            name, below = line.split(":", 1)
            crates.append((name.removesuffix(" staticlib"), group, below.split()))
    return crates


def plain(text):
    """Returns a text without the brackets of links, the backticks and the ends of lines."""
    return " ".join(re.sub(r"\[([^\]]*)\](\([^)]*\))?", r"\1", text).replace("`", "").split())


def first_sentence(source):
    """Returns the first sentence of the head of a source."""
    head = itertools.takewhile(lambda line: line.startswith("//! "), source.split("\n"))
    text = plain(" ".join(line[len("//! "):] for line in head))
    sentence = re.match(r".*?[.!?](?=\s|$)", text)
    return sentence.group() if sentence else text


def crates_of_document(text):
    """Returns the crates that a document lists below headings `### GROUP`: the name of each, its group, and its text."""
    group, crates = None, []
    for kind, _, block in blocks_of(text):
        if kind == "head":
            group = block[0][len("### "):] if block[0].startswith("### ") else None
        crate = re.match(r"- (\w+): (.*)", " ".join(block)) if kind == "item" and group else None
        if crate:
            crates.append((crate.group(1), group, plain(crate.group(2))))
    return crates


def uses_in(source):
    """Returns the uses of threads, sockets and files in a source, each with the number of its line; comments have none."""
    code = re.sub(r"//[^\n]*", "", source)
    return [(code.count("\n", 0, use.end()) + 1, " ".join(use.group().split())) for use in USE.finditer(code)]
