"""Runs `inform --show` for the scripts that try what it says of refused sources."""

import subprocess
from contextlib import contextmanager

from room import INFORM, SECONDS, fail, fresh_folder


class Room:
    """A folder in which `inform` is run."""

    fail = staticmethod(fail)

    def __init__(self, folder):
        self.folder = folder

    def write(self, name, source):
        """Writes a source file, a byte for each character."""
        (self.folder / name).write_bytes(source.encode("latin-1"))

    def run(self, *words):
        """Runs `inform`: its status, and the lines of standard error. It prints nothing else, and writes a story only
        of a source that is accepted."""
        done = subprocess.run(
            [INFORM, *words], cwd=self.folder, stdin=subprocess.DEVNULL, capture_output=True, timeout=SECONDS
        )
        if done.stdout or (done.returncode != 0 and (self.folder / "story").exists()):
            self.fail(f"{words}: status {done.returncode}, {done.stdout}")
        return done.returncode, done.stderr.decode("latin-1").split("\n")

    def said(self, source, version):
        """The number of the fault of a source, and the sentence after its place; both empty if it is accepted."""
        self.write("room.inf", source)
        status, lines = self.run("--show", "-v", version, "room.inf")
        if status == 0 and lines == [""]:
            return "", ""
        if status != 1 or len(lines) < 2:
            self.fail(f"{source[:200]!r} has status {status} and says {lines}")
        fault = next(word for word in lines[0].split() if word[0] == "E" and word[1:].isdigit())
        return fault, lines[1].split(": ", 1)[1]


@contextmanager
def fresh_room():
    """A room in a fresh folder."""
    with fresh_folder("inform") as folder:
        yield Room(folder)
