"""Plays a story by `play --json`: each call sends a line and returns the object of the reply, a dictionary."""

import json
import subprocess


class Game:
    """A game. `reply` is the object of the latest reply, the opening's at first. `seed` is that of its dice; `resumed` is how
    many lines were played before, where a kept session (`--session`) goes on, and then `reply` is the last of their replies."""

    def __init__(self, story, *options, play="play"):
        self.words = [play, "--json", *options, story]
        self.process = None
        self.reset()

    def reset(self):
        """Begins anew, or goes on with a kept session."""
        self.close()
        self.process = subprocess.Popen(self.words, stdin=subprocess.PIPE, stdout=subprocess.PIPE)
        first = self._read()
        if first["reply"] == "refused":
            raise EOFError(f"play refuses the story: {first}")
        self.seed, self.resumed = first["seed"], first.get("resumed")
        return first if self.resumed is None else self._read()

    def step(self, line):
        """Plays a line."""
        self.process.stdin.write(line.encode() + b"\n")
        self.process.stdin.flush()
        return self._read()

    def undo(self):
        """Takes the latest turn back. `reply["reply"]` tells whether there was one."""
        return self.step("/undo")

    def redo(self):
        """Does the first undone turn again."""
        return self.step("/redo")

    def mark(self):
        """Marks where the game is. Returns the number of the mark."""
        return self.step("/mark")["mark"]

    def go(self, mark):
        """Goes to a mark: the lines that were played there stand again. `reply["reply"]` is `gone` then."""
        return self.step(f"/go {mark}")

    def hash(self):
        """The SHA-256 of the state: equal states have equal ones."""
        return self.step("/hash")["hash"]

    def score(self, where=None):
        """The score. Stories of versions 1 to 3 tell it, unless their status line shows the time. Of others it is known
        only by `where`: a function of the game, the number of the global variable, 0 to 239, that has it, or a list of
        such numbers, for a list of values."""
        if callable(where):
            return where(self)
        if where is None:
            if "score" not in self.reply:
                raise ValueError("the story does not tell its score")
            return self.reply["score"]
        values = [value - 65536 if value >= 32768 else value for value in self.step("/globals")["globals"]]
        return values[where] if isinstance(where, int) else [values[number] for number in where]

    def objects(self):
        """The objects, by their numbers."""
        return {found["number"]: found for found in self.step("/objects")["objects"]}

    def dictionary(self):
        """The words of the dictionary, with their data bytes."""
        return {found["word"]: bytes.fromhex(found["data"]) for found in self.step("/dictionary")["dictionary"]}

    def close(self):
        """Ends the game."""
        if self.process:
            self.process.stdin.close()
            self.process.stdout.close()
            self.process.wait()

    def _read(self):
        line = self.process.stdout.readline()
        if not line:
            raise EOFError(f"play ended with status {self.process.wait()}")
        self.reply = json.loads(line)
        return self.reply

    def __enter__(self):
        return self

    def __exit__(self, *_):
        self.close()
