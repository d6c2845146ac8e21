"""The checks of documents and crates find what is wrong, and nothing in what is right."""
import pytest

from support.crates import crates_of_document, crates_of_list, first_sentence, may_use, uses_in
from support.documents import (long_lines, misplaced_names, missing_paths, sentences_of_first_paragraph, unknown_names,
                               wrong_commands)

SOURCES = {"crates/low/src/lib.rt": "fn open_line() {}", "docs/ONE.md": "", "tests/cli/test_input.py": "def test_rack(): pass"}


@pytest.fixture
def small(tmp_path):
    """A folder with the files of SOURCES."""
    for name, text in SOURCES.items():
        (tmp_path / name).parent.mkdir(parents=True, exist_ok=True)
        (tmp_path / name).write_text(text, encoding="utf-8")
    return tmp_path


@pytest.mark.parametrize(("text", "found"), [
    pytest.param("See `crates/low` and `crates/low/src/lib.rt`.", [], id="there"),
    pytest.param("See `crates/high`.", ["crates/high"], id="folder"),
    pytest.param("See `tests/cli/test_words.py 'word'`.", ["tests/cli/test_words.py 'word'"], id="command"),
    pytest.param("See\n`tests/cli/\ntest_words.py`.", [], id="two-lines-that-are-no-path"),
    pytest.param("See `src/main.rt`.", ["src/main.rt"], id="part-of-a-crate"),
    pytest.param("See `src/lib.rt`, `lib.rt` and `specs/NAME.rt`.", [], id="parts-that-are-there"),
    pytest.param("See `words.py`.", ["words.py"], id="file"),
    pytest.param("See [one](ONE.md) and [two](TWO.md#head), [three](http://a/b).", [], id="links-that-are-there-or-have-a-head"),
    pytest.param("See [two](TWO.md).", ["TWO.md"], id="link"),
    pytest.param("Call\n\n    tests/none.sh\n", [], id="code-has-its-own-check"),
])
def test_missing_paths(small, text, found):
    assert missing_paths(text, "docs", small, SOURCES) == found


@pytest.mark.parametrize(("text", "found"), [
    pytest.param("`open_line` and `sched_autogroup_enabled`", [], id="known"),
    pytest.param("`a::open_lines`", ["open_lines"], id="unknown"),
    pytest.param("`open` and close_line", [], id="no-underscore-or-no-backticks"),
])
def test_unknown_names(text, found):
    assert unknown_names(text, {"open_line"}) == found


@pytest.mark.parametrize(("text", "found"), [
    pytest.param("`open_line` of `crates/low`", [], id="there"),
    pytest.param("`open_line` and `test_rack` in `crates/low/src`", ["test_rack is not in crates/low/src"], id="second"),
    pytest.param("`low::close_line` of `crates/low`", ["low::close_line is not in crates/low"], id="path-of-a-name"),
    pytest.param("`test_input` of `tests/cli`", [], id="name-of-a-file"),
])
def test_misplaced_names(text, found):
    assert misplaced_names(text, SOURCES) == found


@pytest.mark.parametrize(("text", "found"), [
    pytest.param("Call\n\n    tests/cli/test_input.py ./rackd run a b\n", [], id="there"),
    pytest.param("Call\n\n    ./tests/cli/none.py x\n", ["no such path: ./tests/cli/none.py"], id="path"),
    pytest.param("```\npython3 docs/none.py\n```\n", ["no such path: docs/none.py"], id="path-in-a-fence"),
    pytest.param("Call `rackd play rack` and `echo | ./rackd sing`.", ["play", "sing"], id="words"),
    pytest.param("Call `rackd --help` and `rackd RACK`; rackd plays no word.", [], id="no-words"),
])
def test_wrong_commands(small, text, found):
    assert wrong_commands(text, small, {"run"}) == [row if ":" in row else f"no such word of rackd: {row}" for row in found]


@pytest.mark.parametrize(("text", "found"), [
    pytest.param("x" * 120, [], id="120"),
    pytest.param("# Head\n\n" + "x" * 121, ["line 3: 121 characters"], id="121"),
    pytest.param("| " + "x" * 300 + " |", [], id="table"),
    pytest.param("Call\n\n    " + "x" * 120, ["line 3: 124 characters"], id="code"),
])
def test_long_lines(text, found):
    assert long_lines(text) == found


@pytest.mark.parametrize(("text", "number"), [
    pytest.param("# Head\n\nOne sentence of `a. b`\nin two lines.\n\nMore. And more.\n", 1, id="one"),
    pytest.param("# Head\n\nOne. Two.\n", 2, id="two"),
    pytest.param("# Head\n\nNo end\n", 0, id="none"),
])
def test_sentences_of_first_paragraph(text, number):
    assert sentences_of_first_paragraph(text) == number


@pytest.mark.parametrize(("source", "uses"), [
    pytest.param("use std::fmt;\n// std::fs\n", [], id="none"),
    pytest.param("use std::fmt;\nuse std::net::TcpStream;\n", [(2, "std::net")], id="sockets"),
    pytest.param("use std::{\n    fmt,\n    thread,\n};\n", [(3, "std::{ fmt, thread")], id="threads"),
    pytest.param("fn f() { crossbeam_channel::bounded() }", [(1, "crossbeam_channel")], id="library"),
])
def test_uses(source, uses):
    assert uses_in(source) == uses


@pytest.mark.parametrize(("crate", "may"), [("rackd", True), ("watch_host", True), ("serve_log", True), ("dp_line", False)])
def test_which_crates_may(crate, may):
    assert may_use(crate) is may


def test_list_of_crates():
    crates = [("low", "Lines", []), ("rackd", "Program", ["low", "std"])]
    assert crates_of_list("# Lines\nlow:\n\n# Program\nrackd: low std\n") == crates


def test_crates_of_a_document():
    text = "# Layers\n\n- none: Of no group.\n\n### Lines\n\n- low: Opens `lines`\n  of a rack.\n- high: Opens [all](a).\n"
    assert crates_of_document(text) == [("low", "Lines", "Opens lines of a rack."), ("high", "Lines", "Opens all.")]


@pytest.mark.parametrize(("source", "sentence"), [
    ("//! Opens `lines`\n//! of version 1.5. And more.\nuse std;\n", "Opens lines of version 1.5."), ("//! No end\n", "No end")])
def test_first_sentence(source, sentence):
    assert first_sentence(source) == sentence
