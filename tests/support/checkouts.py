"""Small checkouts for tests of the script ./rackd and of dist/refresh, with a stand-in for rt and for the program."""
import os
import shutil
from pathlib import Path
from typing import NamedTuple

from support.processes import run_program

# The programs of the system that the two scripts use.
TOOLS = ("bash", "readlink", "env", "sha256sum", "mv", "chmod", "cp", "rm")
# What stands in for rt: it notes that it was asked, and makes a program that prints its words and ends with status 5.
RT = """\
#!/usr/bin/env bash
if [ "$1" = version ]; then echo 'a kit'; exit; fi
echo "$*" >>"$STAND_IN_ASKED"
echo an output of no use
echo "$STAND_IN_SAYS" >&2
if [ "$STAND_IN_CHANGES" ]; then echo "$STAND_IN_CHANGES" >src/main.rt; fi
if [ "$STAND_IN_STATUS" = 0 ]; then
  printf '#!/usr/bin/env bash\\nprintf runs\\nprintf " [%%s]" "$@"\\necho\\n[ "$1" = --version ] || exit 5\\n' >out/rackd
  chmod +x out/rackd
fi
exit "$STAND_IN_STATUS"
"""


class Rt(NamedTuple):
    """What the stand-in for rt does: what it says, what it writes into the source of rackd meanwhile, and its status."""

    says: str = "fn low::f: proved"
    changes: str = ""
    status: int = 0


class Checkout:
    """A checkout of the crates `rackd`, which stands on `low`, and `aside`, which is not linked."""

    def __init__(self, top, folder):
        self.folder = Path(folder) / "tree"
        self.source = self.folder / "crates/rackd/src/main.rt"
        self.low = self.folder / "crates/low/src/lib.rt"
        self.aside = self.folder / "crates/aside/src/lib.rt"
        self.list = self.folder / "crates.txt"
        self.script = self.folder / "rackd"
        self.built = self.folder / "crates/rackd/out/rackd"
        self.carried = self.folder / "dist/x86_64-linux/rackd"
        self._tools, self._rt, self._asked = Path(folder) / "bin", Path(folder) / "rt", Path(folder) / "asked"
        self._make(Path(top))

    def _make(self, top):
        for path in (self.source, self.low, self.aside, self.built, self.carried, self._tools / "bash", self._rt / "rt"):
            path.parent.mkdir(parents=True, exist_ok=True)
        for tool in TOOLS:
            (self._tools / tool).symlink_to(shutil.which(tool))
        shutil.copy(top / "rackd", self.script)
        for name in ("built.sh", "refresh"):
            shutil.copy(top / "dist" / name, self.folder / "dist" / name)
        self.list.write_text("# a crate of tests is not linked\nlow:\nrackd: low\naside: low\n", encoding="utf-8")
        self.low.write_text("//! low\n", encoding="utf-8")
        self.source.write_text("//! old\n", encoding="utf-8")
        (self._rt / "rt").write_text(RT, encoding="utf-8")
        (self._rt / "rt").chmod(0o755)

    @property
    def asked(self):
        """How often rt was asked for the program."""
        return self._asked.read_text(encoding="utf-8").count("\n") if self._asked.exists() else 0

    def _run(self, words, rt, cwd=None):
        """Runs a script, with the stand-in for rt on the PATH or without any."""
        env = {"PATH": os.pathsep.join([str(self._tools)] + [str(self._rt)] * (rt is not None))}
        if rt is not None:
            env.update(STAND_IN_SAYS=rt.says, STAND_IN_CHANGES=rt.changes, STAND_IN_STATUS=str(rt.status),
                       STAND_IN_ASKED=str(self._asked))
        return run_program(words, env=env, cwd=cwd)

    def start(self, *words, rt=None, by=None, cwd=None):
        """Runs the script with these words, by its own path or by another one."""
        return self._run([by or self.script, *words], rt, cwd)

    def refresh(self, rt):
        """Has the checkout carry a program."""
        return self._run([self.folder / "dist/refresh"], rt)

    def forget(self):
        """Removes the program that rt has built, and what is noted of it."""
        self.built.unlink()
        Path(f"{self.built}.built").unlink()
