"""`./install`, from the archive of a release and from a checkout: what it installs, replaces, refuses and removes."""
import os
import shutil
import stat
import subprocess
from pathlib import Path

import pytest

from support.package_runs import executable
from support.processes import run_program
from support.repository import TOP

# The programs that an installation from the archive uses. There is no Python among them.
TOOLS = ("sh", "cp", "dirname", "find", "grep", "mkdir", "mktemp", "rm", "rmdir", "sort", "wc")


@pytest.fixture
def tools(tmp_path):
    """A folder that has only TOOLS, for the PATH."""
    folder = tmp_path / "tools"
    folder.mkdir()
    for name in TOOLS:
        (folder / name).symlink_to(shutil.which(name))
    return folder


@pytest.fixture
def install(tree, tools, tmp_path):
    """A function that runs ./install of the archive with these words, and checks that it leaves no temporary files.

    The home folder is `home` of the test.
    """
    home, temporary = tmp_path / "home", tmp_path / "temporary"
    home.mkdir()
    temporary.mkdir()

    def call(*words, path=tools, script=tree / "install"):
        environment = {"PATH": str(path), "HOME": str(home), "TMPDIR": str(temporary)}
        done = run_program([script, *words], cwd=tmp_path, env=environment)
        assert list(temporary.iterdir()) == []
        return done

    return call


def contents(folder):
    """Returns all files in a folder, with their octets and modes."""
    return {str(path.relative_to(folder)): (path.read_bytes(), stat.S_IMODE(path.stat().st_mode))
            for path in sorted(Path(folder).rglob("*")) if path.is_file()}


def installed_of(tree):
    """Returns what an installation of the archive has to have, but for its list."""
    return {name: file for name, file in contents(tree).items() if name.startswith(("bin/", "share/"))}


def test_installed_files(install, tree, tmp_path):
    done = install("prefix")
    found = contents(tmp_path / "prefix")
    listed = found.pop("share/rackd/installed")[0].decode()
    assert (done.status, done.errors) == (0, "")
    assert found == installed_of(tree)
    assert listed.splitlines() == sorted(found)
    assert done.output.startswith(f"installed {len(found)} files below {tmp_path}/prefix:\n")
    assert f"{tmp_path}/prefix/bin is not on your PATH" in done.output
    assert run_program([tmp_path / "prefix/bin/rackd", "--version"]).status == 0


def test_default_prefix(install, tools, tmp_path):
    """It is ~/.local. A prefix whose programs are found needs no hint."""
    home = tmp_path / "home"
    done = install(path=f"{tools}:{home}/.local/bin")
    assert (done.status, done.errors) == (0, "")
    assert (home / ".local/bin/rackd").is_file() and "PATH" not in done.output
    assert install("--remove").status == 0
    assert contents(home) == {}


def test_remove(install, tmp_path):
    """Files of others stay, and folders that are empty go."""
    install("prefix")
    own = tmp_path / "prefix/share/man/man1/other.1"
    own.write_text("other", encoding="ascii")
    done = install("--remove", "prefix")
    assert (done.status, done.errors) == (0, "") and done.output.startswith("removed ")
    assert [path for path in (tmp_path / "prefix").rglob("*") if not path.is_dir()] == [own]
    assert not (tmp_path / "prefix/bin").exists() and not (tmp_path / "prefix/share/rackd").exists()
    assert install("--remove", "prefix") == (1, "", f"install: nothing is installed below {tmp_path}/prefix\n")


def test_install_again(install, tmp_path):
    """A file that the new installation no longer has is removed."""
    install("prefix")
    before = contents(tmp_path / "prefix")
    listed = tmp_path / "prefix/share/rackd/installed"
    (tmp_path / "prefix/share/rackd/old").write_text("old", encoding="ascii")
    listed.write_text(listed.read_text(encoding="ascii") + "share/rackd/old\n", encoding="ascii")
    assert install("prefix").status == 0
    assert contents(tmp_path / "prefix") == before


def test_program_that_runs_is_replaced(install, tmp_path):
    install("prefix")
    with subprocess.Popen([tmp_path / "prefix/bin/rackd"], stdin=subprocess.PIPE) as running:
        done = install("prefix")
        running.kill()
    assert (done.status, done.errors) == (0, "")


def test_installation_that_breaks_off(install, tools, tmp_path):
    """It can be repeated, and removed."""
    for again in ("prefix",), ("--remove", "prefix"):
        (tools / "cp").unlink()
        executable(tools / "cp", f'#!{shutil.which("sh")}\ncase $2 in */rackd.1) exit 7 ;; esac\n{shutil.which("cp")} "$@"\n')
        assert install("prefix").status == 7
        (tools / "cp").unlink()
        (tools / "cp").symlink_to(shutil.which("cp"))
        assert install(*again).status == 0
    assert contents(tmp_path / "prefix") == {}


def test_file_of_somebody_else(install, tmp_path):
    """Nothing is installed then."""
    own = tmp_path / "prefix/bin/rackd"
    own.parent.mkdir(parents=True)
    own.write_text("mine", encoding="ascii")
    assert install("prefix") == (1, "", f"install: {own} is there, and was not installed by this\n")
    assert contents(tmp_path / "prefix") == {"bin/rackd": (b"mine", 0o644)}


@pytest.mark.parametrize("words", [("--purge",), ("one", "two"), ("--remove", "--remove")], ids=" ".join)
def test_wrong_words(install, tmp_path, words):
    assert install(*words) == (1, "", "install: usage: ./install [--remove] [PREFIX]\n")
    assert contents(tmp_path / "home") == {}


def test_checkout(install, tree, tools, program, tmp_path):
    """A checkout installs the same files, and leaves none behind. Without Python it says what to do."""
    checkout = tmp_path / "checkout"
    checkout.mkdir()
    for name in ("dist", "docs", "examples", "share"):
        shutil.copytree(TOP / name, checkout / name, ignore=shutil.ignore_patterns("__pycache__"))
    for name in ("README.md", "CHANGELOG.md", "install"):
        shutil.copy(TOP / name, checkout)
    # the program under test is the one that this checkout carries
    release = checkout / "dist/release"
    text = release.read_text(encoding="utf-8").replace("options.program is None and ", "False and ")
    release.write_text(text, encoding="utf-8")
    shutil.copy(program, checkout / "dist/x86_64-linux/rackd")
    before = contents(checkout)
    without = install("prefix", script=checkout / "install")
    assert without == (1, "", "install: python3 is missing; an archive of a release needs none\n")
    done = install("prefix", script=checkout / "install", path=os.environ["PATH"])
    assert (done.status, done.errors) == (0, ""), done
    found = contents(tmp_path / "prefix")
    del found["share/rackd/installed"]
    assert found == installed_of(tree)
    assert contents(checkout) == before


def test_neither_checkout_nor_archive(install, tmp_path):
    shutil.copy(TOP / "install", tmp_path / "alone")
    done = install("prefix", script=tmp_path / "alone")
    assert done == (1, "", f"install: {tmp_path} is neither a checkout nor an archive of rackd\n")
