"""The memory of `rackd capture`: it does not grow with its audit text."""
import subprocess

from oracle.pcapng import PACKET, blocks_of
from support.processes import PATIENCE
from support.sleeping import peak_memory, wait_until_asleep

RACK = '[[line]]\nnumber = 1\ncapacity = 10\nmasters = [1]\n[[line.slave]]\naddress = 5\nident = 0x80A1\ncfg = "2111"\n'
# The last places of the two parts of the text. All of it has 1.4 MB, and its capture has 5.4 MB.
FEW, MANY = 500, 20_000
# Octets of memory that the program may take more for many entries than for few.
MOST_GROWTH = 256 * 1024


def entries(first, last):
    """Returns the rows of these places: master 1 asks slave 5 for its FDL status, and it replies."""
    return "".join(f"{place} req 1 100501494f16 | WaitPrm none | reply 100105000616 Status\n"
                   for place in range(first, last + 1)).encode()


def feed(process, octets):
    """Writes octets to a program, and returns the most memory that it has had when it waits for more."""
    process.stdin.write(octets)
    process.stdin.flush()
    wait_until_asleep(process.pid)
    return peak_memory(process.pid)


def test_memory_does_not_grow_with_the_text(program, tmp_path):
    """The text of an endless line comes through a pipe, and the memory is read while the program waits for more of it."""
    rack, path = tmp_path / "rack.toml", tmp_path / "capture.pcapng"
    rack.write_text(RACK, encoding="ascii")
    words = [program, "capture", str(rack), "/dev/stdin"]
    with open(path, "wb") as output, subprocess.Popen(words, stdin=subprocess.PIPE, stdout=output) as process:
        try:
            few = feed(process, b"rack-audit 3 line 1\n" + entries(1, FEW))
            many = feed(process, entries(FEW + 1, MANY))
            process.stdin.close()
            assert process.wait(PATIENCE) == 0
        finally:
            process.kill()
    assert sum(kind == PACKET for kind, _ in blocks_of(path.read_bytes())) == 2 * MANY
    assert many - few <= MOST_GROWTH
