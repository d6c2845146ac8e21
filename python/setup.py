"""Builds the wheel: the package, the program and the library that the repository carries, and the scenarios of the suite.

What the build makes lies in a folder for temporary files, so that nothing of it stays in the checkout.
"""
import atexit
import shutil
import tempfile
from pathlib import Path

from setuptools import setup
from setuptools.command.build_py import build_py

try:
    from setuptools.command.bdist_wheel import bdist_wheel
except ImportError:
    from wheel.bdist_wheel import bdist_wheel

TOP = Path(__file__).resolve().parents[1]
PROGRAM = TOP / "dist" / "x86_64-linux" / "rackd"
LIBRARY = PROGRAM.with_name("librackd.so")
SCENARIOS = TOP / "examples" / "suite"
BUILT = tempfile.mkdtemp(prefix="rackd-build-")
atexit.register(shutil.rmtree, BUILT, ignore_errors=True)


class BuildWithProgram(build_py):
    """Builds the package, with the program in its folder `program` and the scenarios in its folder `scenarios`."""

    def run(self):
        super().run()
        if not self.editable_mode:
            folder = Path(self.build_lib, "rackd", "program")
            folder.mkdir(exist_ok=True)
            shutil.copy(PROGRAM, folder / "rackd")
            if LIBRARY.exists():
                shutil.copy(LIBRARY, folder / "librackd.so")
            shutil.copytree(SCENARIOS, folder.with_name("scenarios"), dirs_exist_ok=True,
                            ignore=shutil.ignore_patterns("__pycache__"))


class LinuxWheel(bdist_wheel):
    """Marks the wheel as one for every Python 3, and for the system that the program is for."""

    def finalize_options(self):
        super().finalize_options()
        self.root_is_pure = False

    def get_tag(self):
        return "py3", "none", "linux_x86_64"


setup(
    cmdclass={"build_py": BuildWithProgram, "bdist_wheel": LinuxWheel},
    options={"build": {"build_base": BUILT}, "egg_info": {"egg_base": BUILT}},
)
