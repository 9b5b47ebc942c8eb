"""What the scripts of tests/ share: the programs, fresh folders in which they run, what they say, and how a script ends
where something is not as it should be."""

import subprocess
import sys
import tempfile
from contextlib import contextmanager
from pathlib import Path

from one_row import bytes_of

TOP = Path(__file__).resolve().parent.parent
INFORM, PLAY = TOP / "bin/inform", TOP / "bin/play"

# How many times longer than on a machine that does nothing else something may take. Limits of time are there for what
# does not end, or grows by a wrong power; a machine that proves and runs other scripts beside is no fault.
BUSY = 4
SECONDS = 60 * BUSY


def fail(words):
    """Ends the script as failed, with these words behind its name."""
    sys.exit(f"{Path(sys.argv[0]).name}: {words}")


def check(holds, words):
    """Fails with these words where something does not hold."""
    if not holds:
        fail(words)


def same(what, got, wanted):
    """Fails where something is not what is wanted."""
    check(got == wanted, f"{what}: wanted {wanted!r}, got {got!r}")


def need(*programs):
    """Ends the script as failed if one of our programs is missing."""
    for program in programs:
        if not (TOP / "bin" / program).exists():
            sys.exit(f"bin/{program} is missing: ./test makes it")


@contextmanager
def fresh_folder(*programs):
    """An empty folder for a script that needs these programs; it goes at the end."""
    need(*programs)
    with tempfile.TemporaryDirectory() as folder:
        yield Path(folder)


def run(*words, given="", seconds=SECONDS, **more):
    """Runs a program: its status, and what it writes on both outputs, which is text where it is given text."""
    more |= {"text": True, "errors": "replace"} if isinstance(given, str) else {}
    done = subprocess.run(list(map(str, words)), input=given, capture_output=True, timeout=seconds, check=False, **more)
    return done.returncode, done.stdout, done.stderr


def rows_of(name, *first, coding="latin-1"):
    """The rows of a text file of tests/: lists of lines, each a word and a text. A row begins at each line with one of the
    words that are given first. In texts \\n, \\\\, \\xHH and \\N{..} stand for bytes as in crates/rows; lines that begin
    with # are for readers."""
    rows = []
    for line in (TOP / "tests" / name).read_text().split("\n"):
        word, _, text = line.partition(" ")
        if word in first:
            rows.append([])
        if word not in ("", "#"):
            rows[-1].append((word, bytes_of(text.encode()).decode(coding)))
    return rows
