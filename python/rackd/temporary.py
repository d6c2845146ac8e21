"""Folders that are removed however the process ends that made them."""
from __future__ import annotations

import os
import shutil
import subprocess
import tempfile
from pathlib import Path
from typing import Dict, List

# Waits for the end of its standard input, and then removes the folder that its word names.
GUARD = 'read -r _; rm -rf -- "$1"'


class GuardedFolder:
    """A new folder for temporary files, with a process beside it that removes it if neither `remove` nor `keep` is called.

    The folder is removed then once this process has ended, and all programs that got the descriptors of `descriptors_of`.
    """

    def __init__(self, prefix: str) -> None:
        """Makes the folder. Its name begins with `prefix`."""
        self.path = Path(tempfile.mkdtemp(prefix=prefix)).absolute()
        reading, self.descriptor = os.pipe()
        try:
            # in a session of its own, so that Ctrl-C does not end it
            self._guard = subprocess.Popen(["/bin/sh", "-c", GUARD, "sh", str(self.path)], stdin=reading,
                                           stdout=subprocess.DEVNULL, stderr=subprocess.DEVNULL, start_new_session=True)
        except BaseException:
            os.close(self.descriptor)
            shutil.rmtree(self.path, ignore_errors=True)
            raise
        finally:
            os.close(reading)
        _guarded[self.path] = self

    def remove(self) -> None:
        """Removes the folder, unless it was kept. A second call does nothing."""
        if self.descriptor >= 0:
            shutil.rmtree(self.path, ignore_errors=True)
            self.keep()

    def keep(self) -> None:
        """Ends the process beside the folder, which stays. A second call does nothing."""
        if self.descriptor >= 0:
            # a program that still has the descriptor must not be waited for
            self._guard.kill()
            self._guard.wait()
            self.leave_to_parent()

    def leave_to_parent(self) -> None:
        """Closes the descriptor, in a child of this process, which would have the folder stay."""
        os.close(self.descriptor)
        self.descriptor = -1
        del _guarded[self.path]


# The guarded folders of this process.
_guarded: Dict[Path, GuardedFolder] = {}


def descriptors_of(path: Path) -> List[int]:
    """Returns the descriptors for a program that has files in this folder: a guarded folder around it stays until it ends."""
    return [guarded.descriptor for folder, guarded in list(_guarded.items()) if folder in (path, *path.parents)]


def _leave_all_to_parent() -> None:
    for guarded in list(_guarded.values()):
        guarded.leave_to_parent()


os.register_at_fork(after_in_child=_leave_all_to_parent)
