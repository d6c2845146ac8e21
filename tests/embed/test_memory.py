"""Memory: each allocation of `rackd_open` is refused in turn, and random calls stay within their rooms."""
import subprocess

import pytest
from support.embedded import find
from support.repository import TOP

HERE = TOP / "tests" / "embed"


def test_each_refused_allocation_leaves_a_closed_rack(build):
    program = build(HERE / "refused.c", "-Wl,--wrap=malloc", "-Wl,--wrap=realloc", name="refused")
    done = subprocess.run([program], check=False, capture_output=True, text=True)
    assert (done.returncode, done.stderr) == (0, "")
    refused = int(done.stdout.split()[0])
    assert refused > 10, "an opening takes memory more often"


def test_nothing_leaks_if_memory_is_refused(build):
    program = build(HERE / "refused.c", "-Wl,--wrap=malloc", "-Wl,--wrap=realloc", name="refused-leaks")
    done = subprocess.run([find("valgrind"), "-q", "--leak-check=full", "--show-leak-kinds=all", "--error-exitcode=9", program],
                          check=False, capture_output=True, text=True)
    assert (done.returncode, done.stderr) == (0, "")


def test_a_million_random_calls_under_the_address_sanitizer(build):
    program = build(TOP / "examples" / "embed" / "fuzz.c", "-D", "RACKD_LOOP", "-fsanitize=address", compiler="gcc", name="fuzz")
    done = subprocess.run([program, "1000000"], check=False, capture_output=True, text=True)
    assert (done.returncode, done.stdout, done.stderr) == (0, "1000000 calls\n", "")


@pytest.mark.slow
def test_ten_million_random_calls_under_the_address_sanitizer(build):
    program = build(TOP / "examples" / "embed" / "fuzz.c", "-D", "RACKD_LOOP", "-fsanitize=address", compiler="gcc", name="long")
    done = subprocess.run([program, "10000000"], check=False, capture_output=True, text=True)
    assert (done.returncode, done.stdout, done.stderr) == (0, "10000000 calls\n", "")


def test_fuzz_target_of_clang(build, tmp_path):
    program = build(TOP / "examples" / "embed" / "fuzz.c", "-fsanitize=fuzzer,address", compiler="clang", name="target")
    done = subprocess.run([program, "-runs=2000", "-seed=1"], check=False, capture_output=True, text=True, cwd=tmp_path)
    assert done.returncode == 0, done.stderr
