"""The header and the libraries have the same functions."""
import re
import subprocess

from rackd.reasons import NAMES, NONE
from support.embedded import find
from support.repository import read


def functions_of_header():
    """Returns the names of the functions that the header declares and does not define."""
    text = re.sub(r"/\*.*?\*/", "", read("include/rackd.h"), flags=re.DOTALL)
    return set(re.findall(r"^(?:uint32_t|void) (rackd_\w+)\(", text, re.MULTILINE))


def symbols(words):
    """Returns the names of functions that `nm` prints."""
    rows = subprocess.run(words, check=True, capture_output=True, text=True).stdout.splitlines()
    return {row.split()[-1].split("@")[0] for row in rows if " T " in row}


def test_each_function_of_the_header_is_in_the_archive(library_folder):
    names = symbols([find("nm"), f"{library_folder}/librackd.a"])
    assert {name for name in names if name.startswith("rackd_")} == functions_of_header()


def test_the_shared_object_has_the_functions_of_the_header_only(shared_library):
    assert symbols([find("nm"), "-D", "--defined-only", shared_library]) == functions_of_header()


def test_the_shared_object_has_a_soname_with_the_version(shared_library):
    rows = subprocess.run([find("readelf"), "-d", shared_library], check=True, capture_output=True, text=True).stdout
    major = re.search(r'#define RACKD_VERSION "(\d+)\.', read("include/rackd.h"))[1]
    assert f"[librackd.so.{major}]" in rows


def test_the_version_is_that_of_the_program(run):
    version = re.search(r'#define RACKD_VERSION "(.*)"', read("include/rackd.h"))[1]
    assert run("--version").output.split()[1] == version


def test_the_reasons_of_the_header_are_those_of_the_package():
    reasons = {int(number): name for name, number in re.findall(r"^    RACKD_WHY_(\w+) = (\d+)", read("include/rackd.h"), re.MULTILINE)}
    assert [reasons[number].lower() for number in sorted(reasons)] == list(NAMES)
    assert f"#define RACKD_NONE {NONE}\n" in read("include/rackd.h")
