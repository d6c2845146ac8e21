#!/usr/bin/env python3
"""Makes the man page of rackd, completions for bash, zsh and fish, and a chapter of the reference from its own `--help`.

usage: dist/manual.py PROGRAM FOLDER
       dist/manual.py PROGRAM --reference

The files are written where they lie below the prefix of an installation, and the chapter to standard output. The program
has the only list of its words and options, so nothing here names one.
"""
import re
import subprocess
import sys
from dataclasses import dataclass, field
from pathlib import Path
from typing import Dict, List

PAGE = "share/man/man1/rackd.1"
BASH = "share/bash-completion/completions/rackd"
ZSH = "share/zsh/site-functions/_rackd"
FISH = "share/fish/vendor_completions.d/rackd.fish"
# A row of arguments or options: its names, and behind two blanks what it does.
ROW = re.compile(r"^ {2,6}(?=[-<\w])(\S.*?)(?: {2,}(\S.*))?$")


@dataclass
class Item:
    """An argument or an option: how the help names it, and what it does."""

    names: str
    text: str

    @property
    def options(self) -> List[str]:
        """The forms of an option, as -h and --help; none for an argument."""
        return re.findall(r"(?<![\w-])--?[A-Za-z][\w-]*", self.names)

    @property
    def takes_value(self) -> bool:
        """Whether a word has to follow it."""
        return "<" in self.names and "[<" not in self.names


@dataclass
class Help:
    """The help of the program or of a word."""

    about: str
    usage: List[str]
    sections: Dict[str, List[Item]] = field(default_factory=dict)
    details: str = ""

    @property
    def options(self) -> List[Item]:
        """The items of the section of options."""
        return self.sections.get("Options", [])


def items_of(rows: List[str]) -> List[Item]:
    """Returns the items of a section. A row that is indented further goes on with what the item does."""
    items: List[Item] = []
    for row in rows:
        match = ROW.match(row)
        if match:
            items.append(Item(match.group(1), match.group(2) or ""))
        else:
            items[-1].text = f"{items[-1].text} {row.strip()}".strip()
    return items


def help_of(text: str) -> Help:
    """Reads a help: what it is about, the usage, sections with items, and details, each behind an empty row."""
    about, usage, *blocks = text.rstrip("\n").split("\n\n")
    found = Help(about, [row.removeprefix("Usage: ") if row.startswith("Usage") else row[7:] for row in usage.split("\n")])
    while blocks and re.match(r"(Arguments|Options|Commands.*):\n", blocks[0]):
        head, *rows = blocks.pop(0).split("\n")
        found.sections[head.rstrip(":").split(" ")[0]] = items_of(rows)
    found.details = "\n\n".join(blocks)
    return found


def read_help(program: str, *words: str) -> Help:
    """Returns the help of the program, or of a word."""
    done = subprocess.run([program, *words, "--help"], check=True, capture_output=True, text=True, stdin=subprocess.DEVNULL)
    return help_of(done.stdout)


def roff(text: str) -> str:
    """Returns text so that roff shows it as it is."""
    escaped = text.replace("\\", "\\e").replace("-", "\\-").replace("'", "\\(aq").replace("`", "\\(ga")
    return "\n".join(f"\\&{row}" if row.startswith(".") else row for row in escaped.split("\n"))


def as_it_is(text: str) -> List[str]:
    """Returns the rows of roff for a text with its line ends and blanks."""
    return [".nf", roff(text), ".fi"]


def list_of(items: List[Item]) -> List[str]:
    """Returns the rows of roff for arguments or options."""
    return [row for item in items for row in (".TP", f"\\fB{roff(item.names)}\\fR", roff(item.text))]


def page_of(version: str, program: Help, words: Dict[str, Help]) -> str:
    """Returns the man page: the program, and a section for each word."""
    rows = [f'.TH RACKD 1 "" "rackd {version}" "User Commands"', ".SH NAME",
            "rackd \\- a rack of simulated PROFIBUS DP slaves", ".SH SYNOPSIS", *as_it_is("\n".join(program.usage)),
            ".SH DESCRIPTION", roff(program.about), ".SH OPTIONS", *list_of(program.options)]
    for name, found in words.items():
        rows += [f".SH {roff(name.upper())}", roff(found.about), ".PP", *as_it_is("\n".join(found.usage))]
        for title, items in found.sections.items():
            rows += [f".SS {title}", *list_of(items)]
        rows += [".SS Details", *as_it_is(found.details)]
    if program.details:
        rows += [".SH DETAILS", *as_it_is(program.details)]
    return "\n".join(rows) + "\n"


def table_of(title: str, items: List[Item]) -> List[str]:
    """Returns the rows of Markdown for arguments or options."""
    def cell(text: str) -> str:
        return text.replace("|", "\\|").replace("<", "&lt;")

    names = [item.names.replace("|", "\\|") for item in items]
    return [f"| {title} | |", "|---|---|", *(f"| `{name}` | {cell(item.text)} |" for name, item in zip(names, items)), ""]


def code_of(text: str) -> List[str]:
    """Returns the rows of Markdown for a text with its line ends and blanks."""
    return ["```", *text.split("\n"), "```", ""] if text else []


def paragraphs_of(details: str) -> List[str]:
    """Returns the rows of Markdown for paragraphs, in which indented rows are code."""
    rows: List[str] = []
    for block in details.split("\n\n"):
        prose = [row for row in block.split("\n") if not row.startswith("  ")]
        code = [row[2:] for row in block.split("\n") if row.startswith("  ")]
        if prose:
            rows += [*prose, ""]
        rows += code_of("\n".join(code))
    return rows


# What holds of all words, and stands in no help.
FOR_ALL_WORDS = """\
## For all commands

Options come before or after the arguments. An option is given at most once, unless its name in the tables ends in
`...`. An option whose value may be missing, `[<..>]` in the tables, comes after the arguments, since it would take the
next one for its value.

Files are named by their paths, which have to be UTF-8. A path `-` is a file of that name, not standard input. A longer
path that begins with `-` comes after the word `--`."""


def reference_of(version: str, program: Help, words: Dict[str, Help]) -> str:
    """Returns the chapter of the reference about the command line: the program, and a section for each word."""
    rows = ["# The command line", "",
            "This chapter is for users of `rackd`: it has each word of the program with its arguments and options, made by",
            f"`dist/manual.py` from what `rackd --help` of version {version} prints.", "", *code_of("\n".join(program.usage)),
            *table_of("Options", program.options), *paragraphs_of(program.details), FOR_ALL_WORDS, ""]
    for name, found in words.items():
        rows += [f"## {name}", "", f"{found.about}.", "", *code_of("\n".join(found.usage))]
        for title, items in found.sections.items():
            rows += table_of(title, items)
        rows += paragraphs_of(found.details)
    return "\n".join(rows).rstrip("\n") + "\n"


def choices_of(found: Help) -> str:
    """Returns all forms of all options of a word."""
    return " ".join(option for item in found.options for option in item.options)


def bash_of(program: Help, words: Dict[str, Help]) -> str:
    """Returns the completions for bash: words, options of each word, and else files."""
    cases = "".join(f"    {name}) choices='{choices_of(found)}' ;;\n" for name, found in words.items())
    return f"""# completions of rackd for bash
_rackd() {{
  local current=${{COMP_WORDS[COMP_CWORD]}} choices=
  if [ "$COMP_CWORD" = 1 ]; then
    choices='{" ".join(words)} help {choices_of(program)}'
  else
    case ${{COMP_WORDS[1]}} in
    help) choices='{" ".join(words)}' ;;
{cases}    esac
    case $current in -*) ;; *) [ "${{COMP_WORDS[1]}}" = help ] || choices= ;; esac
  fi
  mapfile -t COMPREPLY < <(compgen -W "$choices" -- "$current")
}}
complete -o default -F _rackd rackd
"""


def quoted(text: str) -> str:
    """Returns a text as a word of zsh or fish."""
    return "'" + text.replace("\\", "\\\\").replace("'", "\\'") + "'"


def zsh_of(words: Dict[str, Help]) -> str:
    """Returns the completions for zsh."""
    def spec(text: str) -> str:
        return "'" + re.sub(r"([\[\]:\\])", r"\\\1", text).replace("'", "'\\''") + "'"

    named = " ".join(spec(name) + ":" + spec(found.about) for name, found in words.items())
    cases = "".join(f"  {name}) _arguments -s "
                    + " ".join(quoted_option(option, item) for item in found.options for option in item.options)
                    + " '*:file:_files' ;;\n" for name, found in words.items())
    return f"""#compdef rackd
local -a words_of_rackd
words_of_rackd=({named})
if (( CURRENT == 2 )); then
  _describe word words_of_rackd
  return
fi
case $words[2] in
{cases}esac
"""


def quoted_option(option: str, item: Item) -> str:
    """Returns an option as _arguments of zsh takes it."""
    text = re.sub(r"([\[\]:\\])", r"\\\1", item.text).replace("'", "'\\''")
    return f"'{option}[{text}]" + (":value:_files'" if item.takes_value else "'")


def fish_of(program: Help, words: Dict[str, Help]) -> str:
    """Returns the completions for fish."""
    rows = ["# completions of rackd for fish"]
    for name, found in words.items():
        rows.append(f"complete -c rackd -n __fish_use_subcommand -a {name} -d {quoted(found.about)}")
    for condition, found in [("__fish_use_subcommand", program),
                             *((f"'__fish_seen_subcommand_from {name}'", found) for name, found in words.items())]:
        for item in found.options:
            forms = " ".join(f"-l {option[2:]}" if option.startswith("--") else f"-s {option[1:]}" for option in item.options)
            rows.append(f"complete -c rackd -n {condition} {forms}{' -r' if item.takes_value else ''} -d {quoted(item.text)}")
    return "\n".join(rows) + "\n"


@dataclass
class Manual:
    """What the help of a program says: its version, the program, and each word."""

    version: str
    program: Help
    words: Dict[str, Help]


def read_manual(path: str) -> Manual:
    """Reads the help of a program and of each of its words."""
    version = subprocess.run([path, "--version"], check=True, capture_output=True, text=True).stdout.split()[1]
    program = read_help(path)
    names = [item.names for item in program.sections["Commands"] if item.names != "help"]
    return Manual(version, program, {name: read_help(path, name) for name in names})


def manual(path: str) -> Dict[str, str]:
    """Returns the text of each file that is made from the help of a program."""
    found = read_manual(path)
    return {PAGE: page_of(found.version, found.program, found.words), BASH: bash_of(found.program, found.words),
            ZSH: zsh_of(found.words), FISH: fish_of(found.program, found.words)}


def main() -> None:
    program, folder = sys.argv[1:]
    if folder == "--reference":
        found = read_manual(program)
        print(reference_of(found.version, found.program, found.words), end="")
        return
    for name, text in manual(program).items():
        path = Path(folder, name)
        path.parent.mkdir(parents=True, exist_ok=True)
        path.write_text(text, encoding="utf-8")


if __name__ == "__main__":
    main()
