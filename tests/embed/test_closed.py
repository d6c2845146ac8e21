"""The functions of the header refuse a rack in the wrong state."""
import re
import subprocess

from support.repository import TOP, read

HERE = TOP / "tests" / "embed"


def test_calls_with_a_closed_rack(build):
    done = subprocess.run([build(HERE / "closed.c", "-std=c99", "-pedantic", "-Wextra", name="closed")], check=False,
                          capture_output=True, text=True)
    assert (done.returncode, done.stdout) == (0, "")


def test_calls_with_a_closed_rack_from_cpp(build, tmp_path):
    source = tmp_path / "closed.cpp"
    source.write_text(read("tests/embed/closed.c"), encoding="utf-8")
    done = subprocess.run([build(source, compiler="c++", name="closed-cpp")], check=False, capture_output=True, text=True)
    assert (done.returncode, done.stdout) == (0, "")


def test_each_function_that_takes_a_rack_is_checked():
    text = re.sub(r"/\*.*?\*/", "", read("include/rackd.h"), flags=re.DOTALL)
    taking = set(re.findall(r"^(?:uint32_t|void) (rackd_\w+)\(rackd_rack \*rack", text, re.MULTILINE))
    assert taking == set(re.findall(r"^#define (rackd_\w+) rackd_checked_\w+$", text, re.MULTILINE))
    called = read("tests/embed/closed.c")
    assert [name for name in taking if f"{name}(" not in called] == []
