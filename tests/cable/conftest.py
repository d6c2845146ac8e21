"""Fixtures of the tests of `rackd cable`."""
import pytest

from support.cables import Cable
from support.racks import usual_rack


@pytest.fixture
def start_cable(program, tmp_path):
    """A function that starts `rackd cable` at the port of a line, with further words, and waits until it is ready."""
    cables = []

    def start(port, *words):
        cable = Cable(program, tmp_path / f"cable-{len(cables) + 1}", port, *words)
        cables.append(cable)
        return cable.wait_until_ready()

    yield start
    for cable in cables:
        cable.kill()


@pytest.fixture
def served(serve, tmp_path):
    """A function that serves the usual rack with its journals, with further words: slaves 5, 6 (a mirror) and 7 (a counter)."""
    count = 0

    def start(*words):
        nonlocal count
        count += 1
        server = serve(usual_rack(), "--audit", tmp_path / f"audit-{count}", *words)
        server.journal = Journal(tmp_path / f"audit-{count}")
        return server

    return start


class Journal:
    """The journal of line 1 in a folder, as it is at the moment of a call."""

    def __init__(self, folder):
        self.folder = folder

    def text(self):
        """Returns all whole rows, of all parts."""
        octets = b"".join(path.read_bytes() for path in sorted(self.folder.glob("line-1-*.audit")))
        return octets[:octets.rfind(b"\n") + 1].decode("ascii")

    def entries(self):
        """Returns the rows of the entries."""
        return self.text().splitlines()[1:]

    def requests(self, telegram):
        """Returns the rows of the entries of these octets."""
        return [row for row in self.entries() if f" {telegram.hex()} " in row]
