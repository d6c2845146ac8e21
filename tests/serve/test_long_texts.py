"""`rackd check` and `rackd explain` on long texts, and on texts in parts: memory, cut rows, and more files than descriptors."""
import os
import resource
import subprocess

import pytest

from support.clients import wait_for
from support.processes import PATIENCE, Done
from support.sleeping import left_in_pipe, peak_memory, wait_until_asleep

# Entries of a short and of a long text, and the octets by which the most memory of the two may differ.
SHORT, LONG, SLACK = 2_000, 200_000, 1 << 20
RACK = '[[line]]\nnumber = 1\ncapacity = 2\nmasters = [1]\n[[line.slave]]\naddress = 5\nident = 1\ncfg = "2111"\n'


@pytest.fixture(name="rack_file")
def fixture_rack_file(tmp_path):
    """The path of a rack file with one line."""
    path = tmp_path / "rack.toml"
    path.write_text(RACK)
    return path


def ticks(count):
    """Returns the rows of an endless line with this number of entries."""
    return [b"rack-audit 3 line 1\n", *(b"%d tick 1 | none | released\n" % place for place in range(1, count + 1))]


def parts(folder, texts):
    """Writes texts to files in a folder, and returns their paths in this order."""
    paths = []
    for number, text in enumerate(texts):
        paths.append(folder / f"part-{number:05}")
        paths[-1].write_bytes(text)
    return paths


def memory_at_end(program, rack_file, folder, words, count):
    """Returns the most memory of a call that has read a text of this number of entries, and one more.

    The call waits for more then, because its last file is a pipe: it has read all before once the pipe is empty and it sleeps.
    """
    pipe = folder / f"pipe-{count}"
    text, = parts(folder, [b"".join(ticks(count))])
    os.mkfifo(pipe)
    words = [word.format(rack=rack_file, text=text, pipe=pipe) for word in words]
    with subprocess.Popen([program, *words], stdin=subprocess.DEVNULL, stdout=subprocess.PIPE, stderr=subprocess.PIPE) as process:
        try:
            with open(os.open(pipe, os.O_RDWR), "wb", buffering=0) as file:
                file.write(b"%d tick 1 | none | released\n" % (count + 1))
                wait_for(lambda: left_in_pipe(file) == 0)
                wait_until_asleep(process.pid)
                assert process.poll() is None
                most = peak_memory(process.pid)
            output, errors = process.communicate(timeout=PATIENCE)
        finally:
            process.kill()
    assert (process.returncode, errors) == (0, b"")
    assert output.splitlines()[-1] == b"legal %d" % (count + 1)
    return most


@pytest.mark.parametrize("words", [("check", "{rack}", "{text}", "{pipe}"),
                                   ("explain", "{rack}", "{text}", "{pipe}", "--to", "1")], ids=["check", "explain"])
def test_memory_does_not_grow_with_the_text(program, rack_file, tmp_path, words):
    """A text of a hundred times as many entries takes at most 1 MiB more."""
    short, long = (memory_at_end(program, rack_file, tmp_path, words, count) for count in (SHORT, LONG))
    assert abs(long - short) <= SLACK


@pytest.fixture(name="day")
def fixture_day(top):
    """The paths of the example of a day, without their ends."""
    return str(top / "examples" / "day-of-a-line")


@pytest.fixture(name="text_of_a_day")
def fixture_text_of_a_day(top):
    """The audit text of the example of a day."""
    return (top / "examples" / "day-of-a-line.audit").read_bytes()


def cut_often(text):
    """Returns a text in pieces of 97 octets."""
    return [text[start:start + 97] for start in range(0, len(text), 97)]


def test_check_of_cut_rows(run, day, text_of_a_day, tmp_path):
    """A row that is cut by the end of a file goes on in the next one, wherever it is cut."""
    done = run("check", f"{day}-rack.toml", *parts(tmp_path, cut_often(text_of_a_day)))
    assert done == Done(0, f"legal {text_of_a_day.count(10) - 1}\n", "")


def test_explanation_of_cut_rows(run, top, day, text_of_a_day, tmp_path):
    """An explanation of rows that are cut is that of whole rows."""
    done = run("explain", f"{day}-rack.toml", *parts(tmp_path, cut_often(text_of_a_day)))
    assert done == Done(0, (top / "examples" / "day-of-a-line.explained").read_text(encoding="utf-8"), "")


def test_empty_files_between_parts(run, day, text_of_a_day, tmp_path):
    """Files without octets between those of a text change nothing."""
    pieces = cut_often(text_of_a_day)
    texts = [text for piece in pieces[:40] for text in (piece, b"", b"")] + pieces[40:]
    done = run("check", f"{day}-rack.toml", *parts(tmp_path, texts))
    assert done == Done(0, f"legal {text_of_a_day.count(10) - 1}\n", "")


def few_descriptors():
    resource.setrlimit(resource.RLIMIT_NOFILE, (64, 64))


@pytest.mark.parametrize("command", ["check", "explain"])
def test_more_files_than_descriptors(run, rack_file, tmp_path, command):
    """A text may have more files than the program may open."""
    done = run(command, rack_file, *parts(tmp_path, ticks(300)), preexec_fn=few_descriptors)
    assert (done.status, done.errors, done.output.splitlines()[-1]) == (0, "", "legal 300")


@pytest.mark.parametrize("command", ["check", "explain"])
def test_last_file_is_missing(run, rack_file, tmp_path, command):
    """All files are there before anything is written."""
    done = run(command, rack_file, *parts(tmp_path, ticks(300)), tmp_path / "none", preexec_fn=few_descriptors)
    assert (done.status, done.output) == (2, "")
    assert done.errors.startswith(f"rackd: cannot read {tmp_path}/none\n")
