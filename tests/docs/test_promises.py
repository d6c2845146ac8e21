"""Each file of definitions has a mark, and `tests/support/promises.py` finds a file whose mark is missing or wrong."""
import subprocess
import sys

import pytest

from support.promises import all_definitions, faults_of
from support.repository import TOP

SCRIPT = TOP / "tests/support/promises.py"
# Two crates: the verdict is a promise, the texts are a detail, and the examples are a helper.
RIGHT = {
    "crates/low/specs/Texts.antt": "-- detail\n-- The text of a verdict.\npub text : ℕ\ntext = 1\n",
    "crates/low/specs/TextsExamples.antt": "-- helper\nuse Rattle.low.specs.Texts.{text}\n\npub one : text ≡ 1\none = refl\n",
    "crates/high/specs/Verdict.antt":
        "-- promise\n-- The verdict on a request. More of it.\n-- And more.\nuse Rattle.low.specs.Texts.{text}\n\n-- the first row\n"
        "pub verdict : ℕ\nverdict = text\n",
}
VERDICT, TEXTS = "crates/high/specs/Verdict.antt", "crates/low/specs/Texts.antt"


@pytest.fixture
def marked(tmp_path):
    """A function that writes a tree with other texts in place of some, runs the script, and returns its status and rows."""
    def run(*words, **changed):
        for name, text in {**RIGHT, **changed}.items():
            (tmp_path / name).parent.mkdir(parents=True, exist_ok=True)
            (tmp_path / name).write_text(text, encoding="utf-8")
        done = subprocess.run([sys.executable, SCRIPT, *words, tmp_path], check=False, capture_output=True, text=True)
        assert done.stderr == ""
        return done.returncode, done.stdout.splitlines()

    return run


def test_marks_of_this_tree_are_right():
    definitions = all_definitions(TOP)
    assert {"dp_line.Verdict", "dp_responder.Judgement"} <= {f"{file.crate}.{file.name}" for file in definitions
                                                             if file.mark == "promise"}
    assert faults_of(definitions) == []


def test_promises_are_listed_with_their_sizes(marked):
    """Lines are counted without the mark, imports and empty ones: two of the head, a comment, and two of the definition."""
    assert marked() == (0, ["high             Verdict                  5  The verdict on a request.", "1 promises, 5 lines"])


def test_right_marks(marked):
    assert marked("--check") == (0, [])


@pytest.mark.parametrize("first", ["", "-- The verdict on a request.\n", "-- promises\n", "--promise\n", "\n-- promise\n", "promise\n"])
def test_missing_or_wrong_mark(marked, first):
    text = first + RIGHT[VERDICT].removeprefix("-- promise\n")
    assert marked("--check", **{VERDICT: text}) == (1, [f"{VERDICT}: the first row is no mark"])


@pytest.mark.parametrize("mark", ["promise", "detail"])
@pytest.mark.parametrize("use", ["use", "pub use"])
def test_promise_or_detail_that_cites_a_helper(marked, mark, use):
    text = RIGHT[VERDICT].replace("-- promise", f"-- {mark}").replace("use Rattle.low.specs.Texts", f"{use} Rattle.low.specs.TextsExamples")
    assert marked("--check", **{VERDICT: text}) == (1, [f"{VERDICT}: a {mark} cites the helper low.TextsExamples"])


def test_citation_within_a_crate(marked):
    text = RIGHT[TEXTS].replace("pub text", "use Rattle.low.specs.TextsExamples as examples\npub text", 1)
    assert marked("--check", **{TEXTS: text}) == (1, [f"{TEXTS}: a detail cites the helper low.TextsExamples"])
