"""The file of `--ports`: it names the ports in use, is whole at each look, and replaces no file of another and no link."""
import os
import re
import subprocess
import threading

import pytest

from support.clients import exchange, free_ports, open_master
from support.processes import PATIENCE, Done
from support.racks import line, rack
from support.telegrams import fresh_diagnosis, slave_diag

ROW = "line 1 listen 1 operator 2\n"
REFUSED = "rackd: cannot make {}\n  a file of this name exists; '--ports' only replaces one that names ports or is empty\n"


@pytest.fixture(name="folder")
def fixture_folder(tmp_path):
    """A folder, for the file of ports."""
    folder = tmp_path / "folder"
    folder.mkdir()
    return folder


@pytest.fixture(name="start")
def fixture_start(serve, folder):
    """A function that serves lines with these numbers until it is ready, and returns the lines and ports that the file names."""
    def start(*numbers, **options):
        server = serve(rack(*(line(number, 5) for number in numbers or (1,))), "--ports", folder / "ports", names_ports=False,
                       **options)
        server.kill()
        return ports_in(folder / "ports")

    return start


@pytest.fixture(name="refuse")
def fixture_refuse(start_server, folder):
    """A function that fails unless a rack isn't served since something is at the path of its file."""
    def refuse():
        server = start_server(rack(), "--ports", folder / "ports", names_ports=False)
        assert server.row() == b""
        assert server.wait() == Done(2, "", REFUSED.format(folder / "ports"))

    return refuse


def ports_in(path):
    """Returns the ports of each line that a file names, in its order. Fails unless it has nothing else."""
    text = path.read_text(encoding="ascii")
    rows = re.findall(r"line (\d+) listen (\d+) operator (\d+)\n", text)
    assert "".join("line {} listen {} operator {}\n".format(*row) for row in rows) == text
    return {int(number): (int(listen), int(operator)) for number, listen, operator in rows}


def names(folder):
    """Returns the names of what is in a folder."""
    return sorted(os.listdir(folder))


def test_rows_of_all_lines(serve):
    """The file has a row for each line, ascending, with the ports in use: chosen ones, and those of the rack file."""
    listen, operator = free_ports(2)
    server = serve(rack(line(7, 5), line(2, 5, listen=listen), line(5, 5, operator=operator)), "--until-input-ends", piped=True)
    ports = ports_in(server.folder / "ports")
    assert list(ports) == [2, 5, 7]
    assert (ports[2][0], ports[5][1]) == (listen, operator)
    for number in ports:
        master = open_master(ports[number][0], 1)
        for _ in range(number):
            assert exchange(master, slave_diag(1, 5)) == fresh_diagnosis(1, 5)
        with server.operator(number) as client:
            assert client.ask(f"tick {number}") == "released"
    server.end_input()
    texts = server.wait().output.split("rack-audit 2 line ")
    assert texts[0] == ""
    for number, text in zip(ports, texts[1:]):
        head, *rows = text.splitlines()
        assert (head, len(rows)) == (str(number), number + 1)
        assert rows[-1].split(" | ")[0] == f"{number + 1} tick {number}"


def test_file_is_whole_at_each_look(start, folder):
    """Whoever reads the file while racks start finds it whole, or not there."""
    seen, has_ended = set(), threading.Event()

    def look():
        while not has_ended.is_set():
            try:
                seen.add(len(re.findall(r"(?m)^line \d+ listen \d+ operator \d+\n", (folder / "ports").read_text())))
            except FileNotFoundError:
                pass

    looking = threading.Thread(target=look)
    looking.start()
    try:
        for _ in range(30):
            assert list(start(*range(1, 9))) == list(range(1, 9))
    finally:
        has_ended.set()
        looking.join()
    assert seen == {8}
    assert names(folder) == ["ports"]


@pytest.mark.parametrize("text", [ROW * 100, "", "cable 7101 listen 7401\n", "line 255 listen 65535 operator 0\n"],
                         ids=["hundred-lines", "empty", "cable", "highest-numbers"])
def test_old_file_is_replaced(start, folder, text):
    """A file that names ports, of any number of lines or of a cable, or that is empty, is replaced."""
    (folder / "ports").write_text(text)
    assert list(start()) == [1]
    assert names(folder) == ["ports"]


@pytest.mark.parametrize("text", [
    "mine\n", ROW[:-1], ROW + "mine\n", ROW + "\n", "\n", ROW.replace("1", "01", 1), ROW.replace(" 2", " 65536"),
    ROW.replace("line 1", "line 256"), ROW.replace(" ", "  ", 1), "cable 1 listen\n", ROW * 5_000,
], ids=["other", "no-lf", "other-row", "empty-row", "only-lf", "zero-in-front", "port-too-high", "line-too-high", "two-spaces",
        "half-a-cable", "too-long"])
def test_other_file_is_kept(refuse, folder, text):
    """A file that names no ports is not replaced, whatever is in it, and nothing is left beside it."""
    (folder / "ports").write_text(text)
    refuse()
    assert (folder / "ports").read_text() == text
    assert names(folder) == ["ports"]


@pytest.mark.parametrize("target", ["precious", "others-ports", "none", "nowhere/none"])
def test_link_is_kept(refuse, folder, target):
    """A link at the path of the file is not followed and not replaced: to a file of another, to one that names ports, to none."""
    files = {"precious": "mine\n", "others-ports": ROW}
    for name, text in files.items():
        (folder / name).write_text(text)
    (folder / "ports").symlink_to(folder / target)
    refuse()
    assert os.readlink(folder / "ports") == str(folder / target)
    assert {name: (folder / name).read_text() for name in files} == files
    assert names(folder) == ["others-ports", "ports", "precious"]


def test_what_is_beside_is_kept(start, folder):
    """What is at the path of the new file stays as it is: links, a folder, a file that a rack left."""
    (folder / "precious").write_text("mine\n")
    (folder / "ports.new").symlink_to(folder / "precious")
    (folder / "ports.new.1").symlink_to(folder / "none")
    (folder / "ports.new.2").mkdir()
    (folder / "ports.new.3").write_text("line 1 lis")
    before = names(folder)
    assert list(start()) == [1]
    assert (folder / "precious").read_text() == "mine\n"
    assert (folder / "ports.new.3").read_text() == "line 1 lis"
    assert os.readlink(folder / "ports.new") == str(folder / "precious")
    assert names(folder) == sorted([*before, "ports"])
    assert not (folder / "ports").is_symlink()


def test_no_path_beside_is_free(start, refuse, folder):
    """If all hundred paths of the new file are taken, the rack isn't served, and nothing is changed."""
    taken = ["ports.new", *(f"ports.new.{number}" for number in range(1, 100))]
    for name in taken:
        (folder / name).write_text("mine\n")
    refuse()
    assert names(folder) == sorted(taken)
    assert {(folder / name).read_text() for name in taken} == {"mine\n"}
    (folder / "ports.new.99").unlink()
    assert list(start()) == [1]
    assert names(folder) == sorted([*taken[:-1], "ports"])


@pytest.mark.parametrize(("mask", "mode"), [(0o000, 0o644), (0o022, 0o644), (0o027, 0o640), (0o077, 0o600)], ids=oct)
def test_mode(start, folder, mask, mode):
    """The file has the mode that the umask leaves of 644, also if one with another mode was there."""
    (folder / "ports").write_text("")
    (folder / "ports").chmod(0o666)
    start(before=lambda: os.umask(mask))
    assert (folder / "ports").stat().st_mode & 0o777 == mode


@pytest.mark.parametrize("text", ["cable 7101 listen 7401\n", ROW], ids=["cable", "rack"])
def test_cable_replaces(program, folder, text):
    """A cable replaces its own file and that of a rack."""
    (folder / "ports").write_text(text)
    command = [program, "cable", "1", "--listen", "0", "--ports", str(folder / "ports")]
    with subprocess.Popen(command, stdin=subprocess.PIPE, stdout=subprocess.PIPE, stderr=subprocess.DEVNULL) as cable:
        try:
            assert cable.stdout.readline() == b"ready\n"
            assert re.fullmatch(r"cable 1 listen \d+\n", (folder / "ports").read_text())
        finally:
            cable.kill()


def test_cable_keeps_another_file(run, folder):
    """A cable replaces no file that names no ports."""
    (folder / "ports").write_text("mine\n")
    done = run("cable", 1, "--listen", 0, "--ports", folder / "ports", within=PATIENCE)
    assert done == Done(2, "", REFUSED.format(folder / "ports"))
    assert (folder / "ports").read_text() == "mine\n"


def test_no_folder(start_server, folder):
    """A file that cannot be made is a fault before `ready`, with its path and cause."""
    path = folder / "none" / "ports"
    server = start_server(rack(), "--ports", path, names_ports=False)
    assert server.row() == b""
    assert server.wait() == Done(2, "", f"rackd: cannot make {path}\n  the folder of this file does not exist\n")


def test_file_is_a_folder(start_server, folder):
    """If the path is that of a folder, it stays, and nothing is left beside it."""
    (folder / "ports").mkdir()
    server = start_server(rack(), "--ports", folder / "ports", names_ports=False)
    assert server.row() == b""
    done = server.wait()
    assert (done.status, done.output, done.errors.split("\n")[0]) == (2, "", f"rackd: cannot make {folder}/ports")
    assert names(folder) == ["ports"]
    assert (folder / "ports").is_dir()
