"""Rows of text files: sources and stories, and what `inform` and `play` must make of them. tests/both/README.md says how
a row is written. Scripts that read or play rows use this module."""

import json
import os
import re
import subprocess
import sys
import tempfile
from concurrent.futures import ThreadPoolExecutor
from pathlib import Path

TOP = Path(__file__).resolve().parent.parent
FOLDER = TOP / "tests/both"

# The files of rows, in their order: first those of sources.
SOURCES = ("sources", "reading", "objects")
STORIES = ("machine", "versions", "standard")

# The bytes that end a line of the input by its word, and the other words of a row.
ENDS = {"line": b"\n", "last": b""}
WORDS = {"source", "version", "fuel", "keep", "standard", "put", "cut", "mend", "define", "json", "ask", *ENDS}

# What stands for other bytes: a repeated part, a byte by its number, and another sign.
SIGNS = re.compile(rb"\\(?:(\d+)\{([^}]*)\}|x([0-9A-F]{2})|(.))", re.DOTALL)

# The header of a story, the places of its length and its sum, and by which version in how many bytes the length counts.
HEADER, LENGTH, SUM = 64, 0x1A, 0x1C
SCALES = {1: 2, 2: 2, 3: 2, 7: 8, 8: 8}

# Where a story is, as `--why` says it and as a row does.
PLACES = {"waits for a line": "waiting", "waits for a key": "waiting", "has quit": "quit"}

# What stands in front of an abbreviated source, on its first line, and the rows of sources that have no room for it.
ABBREVIATED = 'Abbreviate "in" "the "; '
FULL = ("5,878 words", "64,660 bytes of arrays")

# How long a program may take, in seconds.
PATIENCE = 60


def written(text, number=0):
    """The bytes that a text of a row stands for, in that repetition of a part."""

    def sign(found):
        count, part, code, other = found.groups()
        if count:
            return b"".join(written(part, number) for number in range(int(count)))
        return bytes([int(code, 16)]) if code else {b"n": b"\n", b"\\": b"\\", b"#": b"%d" % number}[other]

    return SIGNS.sub(sign, text if isinstance(text, bytes) else text.encode("ascii"))


def shown(text):
    """Bytes as a row writes them, line by line after `| `."""
    signs = {10: "\\n", 92: "\\\\"}
    return [
        "| " + "".join(signs.get(byte) or (chr(byte) if 32 <= byte < 127 else f"\\x{byte:02X}") for byte in line)
        for line in re.findall(rb"[^\n]*\n|[^\n]+", text)
    ]


def put(story, place, data):
    """Puts bytes at a place of a story, which grows by zeros where it ends before them."""
    story.extend(bytes(max(0, place + len(data) - len(story))))
    story[place : place + len(data)] = data


def mend(story):
    """Fills a story up to a multiple of the scale of its version, and writes its length and its sum."""
    scale = SCALES.get(story[0] if story else 0, 4)
    story.extend(bytes(-len(story) % scale))
    length = len(story) // scale
    put(story, LENGTH, (length if length < 65536 else 0).to_bytes(2, "big"))
    put(story, SUM, (sum(story[HEADER:]) % 65536).to_bytes(2, "big"))


class Row:
    """A row: the words of its lines, each with its text, and the lines that must be shown."""

    def __init__(self, file, number, title, lines):
        self.place = f"{file.name}:{number}"
        self.title = title
        split = next((at for at, line in enumerate(lines) if line.startswith(("| ", "= "))), len(lines))
        self.words = [tuple(line.partition(" ")[::2]) for line in lines[:split]]
        self.wanted = lines[split:]
        self.story = None

    def texts(self, word):
        """The texts behind a word."""
        return [text for it, text in self.words if it == word]

    def last(self, word):
        """The text behind a word where it comes last; `None` where it does not come."""
        return (self.texts(word) or [None])[-1]

    def source(self):
        """The bytes of its source; `None` of a story that is made byte by byte."""
        lines = self.texts("source")
        return b"\n".join(map(written, lines)) if self.story is None else None

    def input(self):
        """The bytes that it types."""
        return b"".join(written(text) + ENDS[word] for word, text in self.words if word in ENDS)

    def has_words_of_its_own(self):
        """Whether a line begins as one of the player's does and is none, so that `--json` does not give it to the story."""
        return re.search(rb"^/(?!(undo|redo|status)$)", self.input(), re.M) is not None

    def make_story(self, definitions):
        """Makes its story byte by byte. A row without a title defines one under a name."""
        story = None
        for word, text in self.words:
            if word in definitions:
                place, base = definitions[word]
                story = bytearray(base)
                put(story, place, bytes.fromhex(text))
                mend(story)
            elif word == "put":
                place, _, data = text.partition(" ")
                story = bytearray() if story is None else story
                put(story, int(place), bytes.fromhex(data))
            elif word == "cut":
                del story[int(text) :]
            elif word == "mend":
                mend(story)
            elif word == "define":
                name, _, place = text.partition(" ")
                definitions[name] = (int(place), bytes(story))
            elif word not in WORDS:
                sys.exit(f"{self.place}: no row has the word {word}")
        self.story = None if story is None else bytes(story)

    def wanted_lines(self):
        """What must be shown, without the ways in which the same bytes are written."""
        return [written(line) if line.startswith("| ") else line for line in self.wanted]


def rows_of(path):
    """The rows of a file."""
    rows, definitions, block, begin = [], {}, [], 0
    for number, line in enumerate([*path.read_text(encoding="ascii").split("\n"), ""], 1):
        if line.startswith("#"):
            continue
        if line:
            begin = begin if block else number
            block.append(line)
        elif block:
            is_titled = block[0].startswith("-- ")
            row = Row(path, begin, block[0][3:] if is_titled else "", block[1:] if is_titled else block)
            row.make_story(definitions)
            if is_titled:
                rows.append(row)
            block = []
    return rows


def all_rows(*names):
    """The rows of files, or of all."""
    return [row for name in names or SOURCES + STORIES for row in rows_of(FOLDER / f"{name}.rows")]


class Player:
    """Plays rows by `inform` and `play`, in a scratch folder of its own for each that runs beside it."""

    def __init__(self, room, programs=TOP / "bin"):
        self.room = Path(room)
        self.inform, self.play = f"{programs}/inform", f"{programs}/play"

    def run(self, name, *words, given=None):
        """Runs a program, and returns its status, and what it wrote and said."""
        files = [self.room / f"{name}.{end}" for end in ("in", "out", "err")]
        files[0].write_bytes(given or b"")
        with open(files[0], "rb") as read, open(files[1], "wb") as wrote, open(files[2], "wb") as said:
            status = subprocess.call(words, stdin=read, stdout=wrote, stderr=said, timeout=PATIENCE, close_fds=False)
        return status, files[1].read_bytes(), files[2].read_bytes().decode(errors="replace")

    def shown(self, name, row):
        """The lines that a row shows. Files of the name are written over."""
        story = self.room / f"{name}.story"
        if row.story is not None:
            story.write_bytes(row.story)
            return self.told(name, row, story) if row.texts("json") else self.played(name, row, story)
        source = self.room / f"{name}.inf"
        source.write_bytes(row.source())
        status, _, said = self.run(name, self.inform, "-v", row.last("version") or "5", source, story)
        if status:
            return ["= " + said.rstrip("\n")]
        status, text, said = self.run(name, self.play, *options(row), story, given=row.input())
        return lines_of(text) + [f"= status {status}" if status < 5 else f"= status {status}: {said}"]

    def played(self, name, row, story):
        """The transcript of a row's story, and where it ends, with the turns that are kept and undone."""
        status, text, said = self.run(name, self.play, "--why", *options(row), story, given=row.input())
        if status == 1:
            return ["= " + re.sub("^play: |:.*|\n", "", said)]
        place = place_of(said)
        if not row.input():
            return lines_of(text) + [f"= status {status}, {place}"]
        if row.has_words_of_its_own():
            return lines_of(text) + [f"= status {status}, {place}{self.kept(name, row, story, text)}"]
        latest = self.replies(name, row, story, row.input())[-1]
        if placed(latest) != place:
            place = f"{place}, by --json {latest['place']}"
        return lines_of(text) + [f"= status {status}, {place}{counts_of(latest)}"]

    def kept(self, name, row, story, text):
        """How many turns can be taken back behind a row's lines, of which the transcript is that text."""
        lines = row.input() + b"/undo\n" * len(row.input())
        _, longer, _ = self.run(name, self.play, *options(row), story, given=lines)
        count = longer.removeprefix(text).count(b"[Undone.]\n")
        return f", {count} kept, 0 undone" if count else ""

    def told(self, name, row, story):
        """The replies of `--json` to a row's lines, and what it answers where the row asks for that."""
        asked = [("", ""), *((word, text) for word, text in row.words if word in ("line", "ask"))]
        lines = b"".join((b"/" if word == "ask" else b"") + written(text) + b"\n" for word, text in asked[1:])
        result = []
        for (word, text), reply in zip(asked, self.replies(name, row, story, lines)):
            result += answer_of(text, reply) if word == "ask" else lines_of(reply["text"].encode())
            if word != "ask":
                result.append(f"= {reply['reply']}, {placed(reply)}{counts_of(reply)}")
        return result

    def replies(self, name, row, story, lines):
        """The replies of `--json` to lines, the first of which is that of the opening."""
        _, text, said = self.run(name, self.play, "--json", *options(row), story, given=lines)
        return [json.loads(line) for line in text.splitlines()] or [{"place": said, "text": "", "done": 0, "undone": 0}]


def options(row):
    """The options of `play` for a row."""
    words = []
    for word, option in (("fuel", "--fuel"), ("keep", "--undo")):
        if row.last(word) is not None:
            words += [option, row.last(word)]
    return words if row.last("standard") is None else [*words, "--standard", "--seed", row.last("standard")]


def lines_of(text):
    """The lines of a transcript, as `wanted_lines` has them."""
    return [b"| " + line for line in re.findall(rb"[^\n]*\n|[^\n]+", text)]


def place_of(said):
    """Where `--why` says that a story is, as a row says it."""
    why = said.strip().removeprefix("play: ")
    fault = re.match(r"(M\d+): ", why)
    return fault[1] if fault else PLACES.get(why, why.removeprefix("stopped by a limit: "))


def placed(reply):
    """Where a reply of `--json` says that a story is, as a row says it."""
    return re.sub("^(fault|limit) ", "", reply["place"])


def counts_of(reply):
    """How many turns a reply of `--json` says are kept and undone, where there are any."""
    kept, undone = reply["done"], reply["undone"]
    return f", {kept} kept, {undone} undone" if kept or undone else ""


def answer_of(asked, reply):
    """What a reply of `--json` answers to `/memory` or `/status`."""
    if asked != "status":
        return ["= " + reply["memory"].upper()]
    return lines_of(reply["status"].encode()) if reply["status"] is not None else ["= no status line"]


def readable(lines):
    """Lines as they stand in a file."""
    return "\n".join(line if isinstance(line, str) else shown(line[2:])[0] for line in lines)


def faults_of(rows, programs=TOP / "bin"):
    """What is wrong with rows: for each that shows something else its place, its title, and both. As many are played side by
    side as there are processors."""
    with tempfile.TemporaryDirectory() as room:
        player = Player(room, programs)
        parts = [rows[first :: os.cpu_count()] for first in range(os.cpu_count())]

        def play(first):
            return [fault for row in parts[first] for fault in fault_of(player, str(first), row)]

        with ThreadPoolExecutor(len(parts)) as workers:
            return [fault for faults in workers.map(play, range(len(parts))) for fault in faults]


def fault_of(player, name, row):
    """What is wrong with a row, if anything."""
    wanted, lines = row.wanted_lines(), player.shown(name, row)
    if lines == wanted:
        return []
    return [f"{row.place}: {row.title}\nit must show\n{readable(wanted)}\nand shows\n{readable(lines)}"]


def in_version_8(row):
    """Has a source that names no version compiled for version 8, and says whether it does."""
    is_changed = row.texts("source") and not row.texts("version")
    if is_changed:
        row.words.append(("version", "8"))
    return is_changed


def abbreviated(row):
    """Puts abbreviations in front of a source that has none, and says whether it does. Two rows leave no byte for them."""
    is_changed = row.texts("source") and b"Abbreviate" not in row.source() and row.title not in FULL
    if is_changed:
        first = [word for word, _ in row.words].index("source")
        row.words[first] = ("source", ABBREVIATED + row.words[first][1])
    return is_changed


def check(rows, told, programs=TOP / "bin"):
    """Plays rows and says how many there were, or ends with those that show something else."""
    faults = faults_of(rows, programs)
    if faults or not rows:
        sys.exit("\n\n".join([*faults[:20], f"{len(faults)} of {len(rows)} rows show something else"]))
    print(f"{len(rows):,} {told}")
