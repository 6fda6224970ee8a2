"""The program `mj`: where it is, and short runs of it."""

import os
import shutil
import subprocess
from pathlib import Path

BUILT = Path(__file__).resolve().parents[3] / "crates" / "mj" / "out" / "mj"
"""Where `rt run` and `rt ci` leave the program in a clone of the repository."""


def find_mj(given=None):
    """The program's path: the one given, else that of the variable MJ, else the repository's, else the search path's.

    None where it isn't built.
    """
    for path in (given, os.environ.get("MJ"), str(BUILT)):
        if path and os.access(path, os.X_OK) and os.path.isfile(path):
            return path
        if path and path in (given, os.environ.get("MJ")):
            return None
    return shutil.which("mj")


def outcome(mj, words):
    """The status of a short run and its last line, which is its refusal or its end; "" where it wrote nothing."""
    done = subprocess.run([mj, *words], capture_output=True, text=True, errors="replace", check=False)
    lines = done.stdout.splitlines()
    return done.returncode, lines[-1] if lines else ""
