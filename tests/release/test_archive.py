"""The archive of a release: the same octets each time, all that a user needs, and a program that runs with a C library only."""
import hashlib
import os
import shutil
import subprocess
import sys
import tarfile
from pathlib import Path

import pytest

from support.processes import run_program
from support.releases import make_release
from support.repository import TOP

# a wheel is built for each worker
pytestmark = pytest.mark.slow

# What the archive has at its top, and files that are below it.
AT_TOP = {"README.md", "CHANGELOG.md", "install", "bin", "share"}
SOME = ["bin/rackd", "share/man/man1/rackd.1", "share/rackd/fdl.lua", "share/rackd/examples/serve/rack.toml",
        "share/rackd/examples/suite/master.c", "share/doc/rackd/README.md", "share/doc/rackd/docs/guide/01-first-master.md"]


def test_same_octets_again(archive, program, tmp_path):
    """Also with another umask, in another folder, at another time, and with other variables."""
    umask = os.umask(0o077)
    try:
        again = make_release(tmp_path / "again", program, TZ="Asia/Tokyo", LC_ALL="C", PYTHONHASHSEED="7")
    finally:
        os.umask(umask)
    assert again.name == archive.name
    assert again.read_bytes() == archive.read_bytes()
    assert package_beside(again).read_bytes() == package_beside(archive).read_bytes()


def test_other_octets_of_another_time(archive, program, tmp_path):
    """The time of all files is that of the commit, or the one that is given."""
    given = make_release(tmp_path / "given", program, SOURCE_DATE_EPOCH="1700000000")
    with tarfile.open(given) as files:
        assert {entry.mtime for entry in files} == {1700000000}
    assert given.read_bytes() != archive.read_bytes()


def version_of(program):
    return subprocess.run([program, "--version"], check=True, capture_output=True, text=True).stdout.split()[1]


def package_beside(archive):
    """Returns the path of the Debian package of the same release."""
    package, = archive.parent.glob("*.deb")
    return package


def test_names_and_sums(archive, program):
    version = version_of(program)
    assert archive.name == f"rackd-{version}-x86_64-linux.tar.gz"
    assert package_beside(archive).name == f"rackd_{version}_amd64.deb"
    for path in (archive, package_beside(archive)):
        text = path.with_name(f"{path.name}.sha256").read_text(encoding="ascii")
        assert text == f"{hashlib.sha256(path.read_bytes()).hexdigest()}  {path.name}\n"


@pytest.mark.skipif(shutil.which("dpkg-deb") is None, reason="dpkg-deb is not installed")
def test_debian_package(archive, unpacked, program, tmp_path):
    """It has the files of the archive below /usr, with their sums, and all folders on the way."""
    package = package_beside(archive)
    fields = run_program(["dpkg-deb", "--field", package, "Package", "Version", "Architecture", "Depends"])
    assert fields == (0, f"Package: rackd\nVersion: {version_of(program)}\nArchitecture: amd64\nDepends: libc6 (>= 2.34)\n", "")
    assert run_program(["dpkg-deb", "--raw-extract", package, tmp_path / "raw"]).status == 0
    found = {str(path.relative_to(tmp_path / "raw/usr")): (path.read_bytes(), path.stat().st_mode)
             for path in (tmp_path / "raw/usr").rglob("*") if path.is_file()}
    assert found == {str(path.relative_to(unpacked)): (path.read_bytes(), path.stat().st_mode) for name in ("bin", "share")
                     for path in (unpacked / name).rglob("*") if path.is_file()}
    sums = tmp_path / "raw/DEBIAN/md5sums"
    assert run_program(["md5sum", "--check", "--quiet", sums], cwd=tmp_path / "raw") == (0, "", "")
    assert len(sums.read_text(encoding="ascii").splitlines()) == len(found)
    listed = [row.split()[-1] for row in run_program(["dpkg-deb", "--contents", package]).output.splitlines()]
    for name in listed:
        assert name == "./usr/" or f"{os.path.dirname(name.rstrip('/'))}/" in listed


def test_entries(archive):
    """All files are those of nobody, lie in one folder, and may be read by everybody; only programs may be run."""
    with tarfile.open(archive) as files:
        entries = files.getmembers()
    assert {(entry.uid, entry.gid, entry.uname, entry.gname) for entry in entries} == {(0, 0, "", "")}
    assert {entry.name.split("/")[0] for entry in entries} == {archive.name.removesuffix(".tar.gz")}
    modes = {entry.name.partition("/")[2]: entry.mode for entry in entries}
    assert set(modes.values()) == {0o644, 0o755}
    assert modes["bin/rackd"] == modes["install"] == 0o755 and modes["README.md"] == 0o644


def test_files(unpacked, program):
    names = {path.name for path in unpacked.iterdir()}
    wheels = {name for name in names if name.endswith(".whl")}
    assert names == AT_TOP | wheels and len(wheels) == 1
    assert [name for name in SOME if not (unpacked / name).is_file()] == []
    assert (unpacked / "bin/rackd").read_bytes() == open(program, "rb").read()
    assert list(unpacked.rglob("__pycache__")) == []


def test_licences(unpacked):
    """Each library that a crate of the program names is there with its licences, and what it names itself, as in `toml`."""
    kit = Path(shutil.which("rt")).resolve().parents[1] / "rattle"
    licences = unpacked / "share/doc/rackd/licences"
    for name in ("clap", "toml", "toml_parser", "bytes", "log", "rand_pcg", "crossbeam_channel"):
        found = {path.name: path.read_bytes() for path in (licences / name).iterdir()}
        assert found == {path.name: path.read_bytes() for path in (kit / name).glob("LICENSE*")} != {}
    # it is linked into no crate of the program
    assert not (licences / "regex").exists()


def libraries_of(program):
    """Returns the files of the C library that a program is linked with, its loader included."""
    rows = subprocess.run(["ldd", program], check=True, capture_output=True, text=True).stdout.split("\n")
    return [word for row in rows for word in row.split() if word.startswith("/")]


def test_files_below_a_prefix(unpacked, tree):
    """They are those that --tree writes, and the licences of libraries."""
    def octets(folder):
        return {str(path.relative_to(folder)): path.read_bytes() for name in ("bin", "share")
                for path in (folder / name).rglob("*") if path.is_file() and "licences" not in path.parts}

    assert octets(unpacked) == octets(tree)


@pytest.mark.skipif(os.geteuid() != 0, reason="only root may change the root folder")
def test_program_runs_with_a_c_library_only(unpacked, tmp_path):
    """In a root folder with the program, the C library and an example, and nothing else."""
    for library in libraries_of(unpacked / "bin/rackd"):
        target = tmp_path / library[1:]
        target.parent.mkdir(parents=True, exist_ok=True)
        shutil.copy(library, target)
    shutil.copytree(unpacked / "bin", tmp_path / "bin")
    shutil.copytree(unpacked / "share/rackd/examples", tmp_path / "examples")
    example = (TOP / "examples/slave-diag.txt").read_bytes()
    ran = run_program(["chroot", tmp_path, "/bin/rackd"], input=example)
    assert (ran.status, ran.errors) == (0, "")
    assert ran.output == (TOP / "examples/slave-diag.out").read_text(encoding="utf-8")
    checked = run_program(["chroot", tmp_path, "/bin/rackd", "check", "examples/audit-rack.toml", "examples/audit.txt"])
    assert checked == (0, (TOP / "examples/audit.out").read_text(encoding="utf-8"), "")


def test_program_that_is_not_built_from_the_sources(tmp_path):
    """The carried program has to be built from the sources as they are."""
    checkout = tmp_path / "checkout"
    checkout.mkdir()
    shutil.copytree(TOP / "dist", checkout / "dist")
    shutil.copy(TOP / "crates.txt", checkout)
    (checkout / "crates").mkdir()
    done = run_program([sys.executable, checkout / "dist/release", tmp_path / "out"])
    assert done.status == 1 and "is not built from these sources" in done.errors
    assert not (tmp_path / "out").exists()
