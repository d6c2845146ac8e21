"""Audit texts that `rackd explain --follow` follows while a test writes them."""
import contextlib
import os
import signal
import subprocess
import time
from pathlib import Path

from support.clients import wait_for
from support.explanations import differences
from support.processes import PATIENCE, Done
from support.servers import PR_SET_PDEATHSIG, libc

# How often a program that has read a file to its end reads again until it has explained what was there, and has looked for a
# later file: one read may be under way, one finds the end, and a next one shows that what comes behind that is done. If there
# is a later file, two reads more get what is in it, and one shows that it is explained.
READS = 7


class Followed:
    """A process of `rackd explain --follow` on files of a folder. It ends with this process at the latest.

    The last file is written by the test, unless `writes` is false. `wrapper` are words before those of the program.
    """

    def __init__(self, program, folder, rack, *options, files=("followed.audit",), writes=True, wrapper=()):
        self.folder = Path(folder)
        self.folder.mkdir(parents=True, exist_ok=True)
        paths = [self.folder / name for name in files]
        self.path, self._was_open = paths[-1], False
        self._file = open(self.path, "ab", buffering=0) if writes else None
        self._output_file, self._error_file = self.folder / "output", self.folder / "errors"
        command = [*wrapper, program, "explain", rack, *paths, "--follow", *options]
        with open(self._output_file, "wb") as output, open(self._error_file, "wb") as errors:
            self.process = subprocess.Popen([str(word) for word in command], stdin=subprocess.DEVNULL, stdout=output,
                                            stderr=errors, start_new_session=True,
                                            preexec_fn=lambda: libc.prctl(PR_SET_PDEATHSIG, signal.SIGKILL))

    @property
    def output(self):
        """What it has written to standard output so far."""
        return self._output_file.read_bytes().decode(errors="backslashreplace")

    @property
    def errors(self):
        """What it has written to standard error so far."""
        return self._error_file.read_bytes().decode(errors="backslashreplace")

    def write(self, text):
        self._file.write(text.encode())

    def write_part(self, name, text):
        """Writes a whole file beside the one that is followed."""
        (self.folder / name).write_text(text, encoding="utf-8")

    def has_ended(self):
        return self.process.poll() is not None

    def expect(self, wanted):
        """Waits until this has been written, and nothing else."""
        until = time.monotonic() + PATIENCE
        while self.output != wanted and not self.has_ended() and time.monotonic() < until:
            time.sleep(0.005)
        self._compare(wanted)

    def _compare(self, wanted):
        faults = differences(("the explanation", wanted, self.output))
        assert not faults, f"{faults[0]}\n{self.errors}"

    def reads(self):
        """Returns how often it has read from any file; never fewer than before."""
        for row in Path(f"/proc/{self.process.pid}/io").read_text(encoding="ascii").splitlines():
            if row.startswith("syscr: "):
                return int(row.split()[1])
        raise AssertionError("the system does not count the reads of a process")

    def position(self):
        """Returns how far it has read the last file; None if that is not open."""
        process, path = Path(f"/proc/{self.process.pid}"), os.path.realpath(self.path)
        for link in (process / "fd").iterdir():
            # A descriptor may have been closed meanwhile.
            with contextlib.suppress(FileNotFoundError):
                if os.readlink(link) == path:
                    return int((process / "fdinfo" / link.name).read_text(encoding="ascii").split()[1])
        return None

    def is_at_the_end(self):
        """Returns whether it has read all that is in the last file; so it has if it was open, and is so no more."""
        position = self.position()
        if position is None:
            return self._was_open
        self._was_open = True
        return position == self.path.stat().st_size

    def expect_nothing_more(self, wanted):
        """Expects that it has read all that is written, goes on to read, and has written this and nothing else."""
        let_read(self)
        self._compare(wanted)
        assert not self.has_ended(), f"it has ended with status {self.process.returncode}: {self.errors}"

    def wait(self):
        """Waits until it ends, and returns how."""
        try:
            status = self.process.wait(PATIENCE)
        except subprocess.TimeoutExpired:
            raise AssertionError(f"it doesn't end within {PATIENCE} seconds, and has written {self.output[-400:]!r}") from None
        return Done(status, self.output, self.errors)

    def memory(self):
        """Returns how many octets of memory it holds."""
        pages = Path(f"/proc/{self.process.pid}/statm").read_text(encoding="ascii").split()[1]
        return int(pages) * os.sysconf("SC_PAGE_SIZE")

    def kill(self):
        """Ends it, and processes that it has started, as `kill -9` does. A second call does nothing."""
        if self.process.returncode is None:
            os.killpg(self.process.pid, signal.SIGKILL)
            self.process.wait()
        if self._file is not None:
            self._file.close()


def let_read(*several):
    """Waits until each of several has read and explained all that is written, and has looked for later files, or has ended."""
    least = []
    for followed in several:
        wait_for(lambda: followed.has_ended() or followed.is_at_the_end())
        if not followed.has_ended():
            least.append((followed, followed.reads() + READS))
    for followed, count in least:
        wait_for(lambda: followed.has_ended() or followed.reads() >= count)
