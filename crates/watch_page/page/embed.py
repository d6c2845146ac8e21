#!/usr/bin/env python3
"""Writes the files of the page into the sources of the crate: page.html, page.css and page.js into the constants of
src/page.rt, src/style.rt and src/script.rt.

usage: embed.py [--check]

A text that cannot be a raw string, because it has `"##` or a carriage return in it, is refused. With --check nothing
is written: for each file a row says whether its constant has its text. The last line is 'N passed, M failed'.
"""
import os
import sys

FOLDER = os.path.dirname(os.path.abspath(__file__))
SOURCES = os.path.join(os.path.dirname(FOLDER), "src")
# A file of the page, the module and the constant that have its text, and what the file is.
FILES = (
    ("page.html", "page", "PAGE", "document"),
    ("page.css", "style", "STYLE", "style sheet"),
    ("page.js", "script", "SCRIPT", "script"),
)


def text_of(folder, name):
    """The text of a file, without any conversion of its line ends."""
    with open(os.path.join(folder, name), encoding="utf-8", newline="") as file:
        return file.read()


def source_of(name, constant, kind):
    """The module whose constant has the text of a file of the page. A ValueError says why there is none."""
    text = text_of(FOLDER, name)
    for wrong, words in (('"##', '"##'), ("\r", "a carriage return")):
        if wrong in text:
            raise ValueError(f"it has {words} in it")
    return (
        f"//! The {kind} of the page. `page/embed.py` writes this file.\n\n"
        f"/// The text of `page/{name}`.\n"
        f'pub const {constant}: &str = r##"{text}"##;\n'
    )


def embed(name, module, constant, kind, checks):
    """Writes a module, or with `checks` compares it. An error says what is wrong."""
    source = source_of(name, constant, kind)
    if not checks:
        with open(os.path.join(SOURCES, f"{module}.rt"), "w", encoding="utf-8", newline="") as file:
            file.write(source)
    elif text_of(SOURCES, f"{module}.rt") != source:
        raise ValueError(f"src/{module}.rt has another text: run {os.path.relpath(__file__)}")


def main(words):
    if words not in ([], ["--check"]):
        sys.exit("usage: embed.py [--check]")
    failed = 0
    for name, module, constant, kind in FILES:
        try:
            embed(name, module, constant, kind, bool(words))
            print(f"ok {name}")
        except (OSError, ValueError) as error:
            failed += 1
            print(f"FAILED {name}: {error}")
    print(f"{len(FILES) - failed} passed, {failed} failed")
    return 1 if failed else 0


if __name__ == "__main__":
    sys.exit(main(sys.argv[1:]))
