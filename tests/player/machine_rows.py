"""Rows of stories, as tests/both/README.md describes them, for the scripts that write them."""

import sys

from dice import DEFAULT_SEED as SEED
from row_files import FOLDER

# Jumps there and back, and on: the way back takes a unit of fuel.
UNIT_SPENT = [0x8C, 0, 5, 0x8C, 0, 5, 0x8C, 0xFF, 0xFC]

STATUS = {
    "quit": "status 0, quit",
    "turn too long": "status 3, turn too long",
    "text too long": "status 3, text too long",
}


def hexadecimal(code):
    return " ".join("%02X" % (b % 256) for b in code)


def put(place, data):
    """The line that puts bytes at a place."""
    if isinstance(data, str):
        data = data.encode()
    return "put %d %s" % (place, hexadecimal(data))


def status(end):
    if end is None:
        return STATUS["quit"]
    if end.startswith("M"):
        return "status 4, " + end
    return STATUS.get(end, "status 0, " + end)


def shown_lines(text):
    """A transcript as the program shows it: line by line, a new line as \\n."""
    if not text:
        return []
    parts = text.split("\n")
    lines = ["| " + part + "\\n" for part in parts[:-1]]
    return lines + (["| " + parts[-1]] if parts[-1] else [])


def notice(end):
    if end is None or end.startswith("quit") or end.startswith("waiting"):
        return ""
    if end in ("turn too long", "text too long"):
        return "\n[Limit: %s]\n" % end
    return "\n[Machine fault: %s]\n" % end


class Rows:
    """Rows in their order, with the headings between them, in a file of a name."""

    def __init__(self, name, base):
        self.file = FOLDER / f"{name}.rows"
        self.base = base
        self.items = []

    def section(self, title):
        self.items.append(f"# {title}")

    def row(self, title, code, shown, *, puts=(), lines=(), end=None, seed=SEED, fuel=None, after=(), name="board"):
        """A row: its title, its code, the text that it prints, and how it ends (quit where nothing is said). Where it has no
        fuel, it has a unit that it spends first: `play` gives one at least."""
        if fuel == 0:
            code, fuel = UNIT_SPENT + code, 1
        wanted = [*shown_lines(shown + notice(end)), "= " + status(end)]
        self.add(title, code, wanted, puts, lines=[f"line {line}" for line in lines], fuel=fuel, seed=seed, after=after, name=name)

    def add(self, title, code, wanted, puts=(), *, lines=(), fuel=None, seed=SEED, after=(), name="board"):
        """A row that shows lines."""
        words = ["-- " + title, f"standard {seed}", f"{name} {hexadecimal(code)}", *puts]
        if puts:
            words.append("mend")
        if fuel is not None:
            words.append(f"fuel {fuel}")
        self.items.append("\n".join([*words, *lines, *after, *wanted]))

    def write_or_compare(self, script, told):
        """Writes the file of the rows, where the first argument asks for that; else ends where the file is another."""
        titles = [line for item in self.items for line in item.split("\n") if line.startswith("-- ")]
        assert len(titles) == len(set(titles)), "a title is there twice"
        text = "\n\n".join([f"# {told}. {script} writes this file.\n\n{self.base.rstrip()}", *self.items]) + "\n"
        if sys.argv[1:] == ["--write"]:
            self.file.write_text(text, encoding="ascii")
        elif not self.file.exists() or self.file.read_text(encoding="ascii") != text:
            sys.exit(f"the rows are not those of {script}: run it with --write")
        print(f"{len(titles)} rows of {told[0].lower()}{told[1:]}")
