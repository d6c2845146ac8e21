"""Words of the command line that are wrong: the status is 2, standard output is empty, and nothing is done."""
import pytest

from support.command_lines import AUDIT, RACK, SLAVE_DIAG, no_file

TRY = "For more information, try '--help'."
PROGRAM = ["Usage: rackd COMMAND ..", "rackd < INPUT", TRY]
CHECK = ["Usage: rackd check RACK AUDIT..", "rackd check --help", TRY]
EXPLAIN = ["Usage: rackd explain RACK AUDIT..", "rackd explain --help", TRY]
GSD = ["Usage: rackd gsd RACK LINE ADDRESS", "rackd gsd --help", TRY]
SERVE = ["Usage: rackd serve RACK", "rackd serve --help", TRY]
OPERATE = ["Usage: rackd operate PORT", "rackd operate --help", TRY]
MISSING = "the following required arguments were not provided:"


def unexpected(word):
    return f"unexpected argument '{word}' found"


def invalid(value, argument, reason):
    return f"invalid value '{value}' for '{argument}': {reason}"


def zero(value, argument):
    return invalid(value, argument, "a number has no sign and no leading zero")


# Words, the first row of the message about them, and texts behind it, one behind another.
MESSAGES = [
    ("word", "unrecognized subcommand 'word'", PROGRAM),
    ("help word", "unrecognized subcommand 'word'", PROGRAM),
    ("--hel", unexpected("--hel"), PROGRAM),
    ("run rack", MISSING, ["Usage: rackd run RACK SCRIPT", "rackd run --help", TRY]),
    ("check rack audit --why", unexpected("--why"), CHECK),
    ("explain rack audit --from 01", zero("01", "--from <N>"), EXPLAIN),
    ("explain rack audit --json --summary", "the argument '--json' cannot be used with '--summary'", EXPLAIN),
    ("judge rack audit --retries 16", invalid("16", "--retries <N>", "expected a number from 0 to 15"), [TRY]),
    ("judge rack audit --rules fcb-first,fcb", invalid("fcb", "--rules <NAME,..>", "there is no such rule"),
     ["Rules:\n  fcb-repeated, fcb-not-alternated, ", "no-request", TRY]),
    ("judge rack audit --rules fbc-repeated",
     invalid("fbc-repeated", "--rules <NAME,..>", "there is no such rule, perhaps 'fcb-repeated'"), ["Rules:\n  ", TRY]),
    ("judge rack audit --rules min-tsdr --without x",
     invalid("x", "--without <NAME,..>", "there is no such rule"), ["Rules:\n  ", TRY]),
    ("judge rack audit --rules min-tsd,x",
     invalid("min-tsd", "--rules <NAME,..>", "there is no such rule, perhaps 'min-tsdr'"), ["Rules:\n  ", TRY]),
    ("judge rack audit --json --junit", "the argument '--json' cannot be used with '--junit'", [TRY]),
    ("gsd rack 1 05", zero("05", "<ADDRESS>"), GSD),
    ("gsd rack +1 5", zero("+1", "<LINE>"), GSD),
    ("serve rack --session 1", unexpected("--session"), SERVE),
    ("serve rack --sessions 0", invalid("0", "--sessions <N>", "expected a number from 1 to 1000000"), [TRY]),
    ("serve rack --log loud", "invalid value 'loud' for '--log [<WHAT>]'", ["[possible values: sessions, requests]", TRY]),
    ("serve rack --tick 9", invalid("9", "--tick <MS>", "expected a number of milliseconds from 10 to 60000, without a unit"), [TRY]),
    ("serve rack --tick 100ms",
     invalid("100ms", "--tick <MS>", "expected a number of milliseconds from 10 to 60000, without a unit"), [TRY]),
    ("serve rack --part x --endless --audit a",
     invalid("x", "--part <MB>", "expected a number of megabytes from 1 to 4096, without a unit"), [TRY]),
    ("serve rack --step 99999999999999999999",
     invalid("99999999999999999999", "--step <MS>",
             "expected a number of milliseconds from 1 to 86400000, without a unit"), [TRY]),
    ("gsd rack x 5", invalid("x", "<LINE>", "expected a number from 0 to 255"), [TRY]),
    ("cable 1 --listen 65536", invalid("65536", "--listen <PORT2>", "expected a number from 0 to 65535"), [TRY]),
    ("explain rack audit --slave -1", unexpected("-1"), [TRY]),
    ("slave file --list --module x", "the argument '--list' cannot be used with '--module <NAME>...'", [TRY]),
    ("serve rack --step 05", zero("05", "--step <MS>"), SERVE),
    ("operate 7 --tick 10", unexpected("--tick"), OPERATE),
    ("operate", MISSING, OPERATE),
    *((f"operate {word}",
       invalid(word, "<PORT>", "it is the number of a port alone, of this machine (127.0.0.1)"),
       ["Usage: rackd operate PORT", TRY])
      for word in ("localhost:7201", "127.0.0.1:7201", "[::1]:7201", ":7201")),
    ("operate 72x1", invalid("72x1", "<PORT>", "expected a number from 1 to 65535"), [TRY]),
]


def ids(words):
    """Returns the name of a case: its words."""
    return words.replace(" ", "_") or "an-empty-word"


@pytest.mark.parametrize(("words", "first", "texts"), MESSAGES, ids=[ids(words) for words, _, _ in MESSAGES])
def test_message(run, words, first, texts):
    status, output, errors = run(*words.split())
    assert (status, output) == (2, "")
    assert errors.split("\n")[0] == f"error: {first}"
    rest = errors
    for text in texts:
        assert text in rest, "it is not behind the text before it"
        rest = rest.split(text, 1)[1]


# Words that are wrong behind each of these words, one choice in each row. The first are wrong in place of such a word.
WRONG = {
    "": """
        word
        -x
        --hel
        --help=1
        --version=1
        --line 1
        help word
        help run check
        play rack script""",
    "run": """

        rack
        rack script word
        --version
        -V
        --line rack script""",
    "check": """

        rack
        rack audit --version
        rack --audit audit
        rack audit --summary
        rack audit --follow
        rack audit --json""",
    "explain": """

        rack
        rack audit --from
        rack audit --from 0
        rack audit --to 4294967296
        rack audit --from 4294967296
        rack audit --slave 256
        rack audit --slave 05
        rack audit --master +1
        rack audit --refused=1
        rack audit --faults=1
        rack audit --summary --summary
        rack audit --why
        rack --follow
        rack audit --follow --follow
        rack audit --json --json
        rack audit --json=1
        rack audit --json --summary""",
    "judge": """

        rack
        rack audit --retries
        rack audit --retries 16
        rack audit --retries 03
        rack audit --master 256
        rack audit --rules
        rack audit --rules x
        rack audit --rules min-tsdr,
        rack audit --without
        rack audit --without x
        rack audit --json --junit
        rack audit --junit --junit
        rack audit --requests-at-least
        rack audit --requests-at-least 4294967296
        rack audit --requests-at-least 01
        rack audit --exchanges-at-least -1
        rack audit --exchanges-at-least 4294967296
        rack audit --allow-untested --allow-untested
        rack audit --allow-untested=1
        rack audit --follow""",
    "capture": """

        rack
        rack audit --json""",
    "gsd": """

        rack
        rack 1
        rack 1 256
        rack 256 5
        rack 1 5 word
        rack 1 5 --vendor
        rack 01 5
        rack x 5""",
    "slave": """

        gsd --module
        gsd word""",
    "serve": """

        rack word
        --sessions 1
        rack --sessions
        rack --sessions 0
        rack --sessions 1000001
        rack --sessions x
        rack --sessions -1
        rack --sessions 1 --sessions 1
        rack --session 1
        rack --sessions +5
        rack --sessions 05
        rack --audit a --renew
        rack --endless
        rack --part 1
        rack --audit a --part 1
        rack --audit a --endless --endless
        rack --audit a --endless 1
        rack --audit a --endless --part
        rack --audit a --endless --part 0
        rack --audit a --endless --part 4097
        rack --audit a --endless --part 05
        rack --audit a --endless --part +5
        rack --keep 2
        rack --audit a --keep 2
        rack --audit a --endless --keep
        rack --audit a --endless --keep 1
        rack --audit a --endless --keep 10001
        rack --audit a --endless --keep 02
        rack --audit a --endless --keep +5
        rack --audit a --endless --keep x
        rack --audit a --endless --keep 2 --keep 3
        rack --audit
        rack --audit a --audit b
        --audit a
        --log
        rack --log loud
        rack --log --log
        rack --tick
        rack --tick 9
        rack --tick 60001
        rack --tick 010
        rack --tick +10
        rack --tick x
        rack --tick 10 --tick 10
        rack --step
        rack --step 0
        rack --step 01
        rack --step 86400001
        rack --step 1 --step 1
        --tick 10""",
    "operate": """

        x
        0
        65536
        07
        +7
        -7
        7 8
        7 --tick 10
        7 --tick
        7 --step 10
        7 --step
        7 --sessions 1""",
}
# An empty row of a word is the word alone.
LINES = [f"{word} {row.strip()}".strip() for word, rows in WRONG.items() for row in rows.split("\n")[1:]]


@pytest.mark.parametrize("words", LINES, ids=map(ids, LINES))
def test_wrong_words(run, words):
    """No input is read, no file is looked for, and no port is connected to."""
    status, output, errors = run(*words.split(), input=f"{RACK}%%\n{SLAVE_DIAG}")
    assert (status, output) == (2, "")
    assert errors.startswith("error: ")
    assert TRY in errors


def test_empty_word(run):
    status, output, errors = run("", input=f"{RACK}%%\n{SLAVE_DIAG}")
    assert (status, output) == (2, "")
    assert errors.startswith("error: ")
    assert TRY in errors


@pytest.mark.parametrize("before", [[], ["--help"]], ids=["alone", "behind---help"])
def test_word_that_is_not_utf_8(run, before):
    assert run(*before, "\udcff", input=RACK) == (2, "", "rackd: a word is not UTF-8\n")


@pytest.mark.parametrize("word", ["run", "check", "explain"])
def test_words_come_before_files(run, tmp_path, word):
    """A wrong option is reported although both files are missing."""
    status, output, errors = run(word, "none", "none", "--word", cwd=tmp_path)
    assert (status, output) == (2, "")
    assert errors.startswith("error: unexpected argument '--word' found\n")
    assert "cannot read" not in errors


@pytest.mark.parametrize("option", ["--refused", "--faults", "--json"])
def test_word_behind_an_option_without_value(run, tmp_path, option):
    """The word is another file of the audit text."""
    (tmp_path / "rack").write_text(RACK, encoding="utf-8")
    (tmp_path / "audit").write_text(AUDIT, encoding="utf-8")
    assert run("explain", "rack", "audit", option, "1", cwd=tmp_path) == (2, "", no_file("1"))
