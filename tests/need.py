"""What `tests/need` does, for the scripts beside it that are written in Python."""

import subprocess
import sys
from pathlib import Path

TOP = Path(__file__).resolve().parent.parent


def need_package(thing, package):
    """Ends a script with status 77 if a program, or a folder with its whole name, is missing. With `./test --install` its
    Debian package is installed instead."""
    words = '. tests/need; need_package "$1" "$2"'
    status = subprocess.run(["bash", "-c", words, "bash", thing, package], cwd=TOP, check=False).returncode
    if status:
        sys.exit(status)
