"""The files of the repository."""
import subprocess
from pathlib import Path

TOP = Path(__file__).resolve().parents[2]


def listed(*patterns):
    """Returns the paths of the files with these patterns that git has, or would add."""
    command = ["git", "ls-files", "-co", "--exclude-standard", *patterns]
    names = subprocess.run(command, cwd=TOP, capture_output=True, text=True, check=True).stdout.split("\n")
    return [name for name in names if name and (TOP / name).is_file()]


def read(name):
    """Returns the text of a file."""
    return (TOP / name).read_text(encoding="utf-8", errors="replace")
