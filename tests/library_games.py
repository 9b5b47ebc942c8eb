"""The games of library_games.txt, examples/lantern.inf and the steps of the tutorial that include library/rooms.inf,
for the scripts that try it."""

import random
from dataclasses import dataclass
from pathlib import Path

TESTS = Path(__file__).resolve().parent
LIBRARY = TESTS.parent / "library"
LANTERN = TESTS.parent / "examples/lantern.inf"
STEPS = TESTS.parent / "examples/tutorial"

# Whether `inform` reads the library by the directive. If not, the library takes its place before `inform` is called.
BY_INCLUDE = True
INCLUDE = 'Include "rooms.inf";\n'

# What in the example depends on `random`, and the same without it.
DICE = (("random(8) == 1", "turns % 8 == 7"), ("random(4)", "3"))

# Words for lines that a player might type, or not.
WORDS = """
    n north s south e w u d in out ne look l i inventory wait z score undo again g take get drop put examine x
    open close lock unlock light douse turn on off give to with from all everything it them the a lantern lamp
    matches key brass iron door green chest oak oil can pot flower sign fish silver bell shell pink cat grey
    great table kitchen me and , . then under at pick up down go enter walk ring pour fill frobnitz 5 ? ' zz
""".split()


@dataclass
class Game:
    """A game after its Include, the lines that are typed, and its transcript."""

    name: str
    source: str
    lines: list
    printed: str


def games():
    """The games of the file."""
    for block in (TESTS / "library_games.txt").read_text().split("### ")[1:]:
        name, _, rest = block.partition("\n")
        source, _, rest = rest.partition("\nlines:\n")
        lines, _, printed = rest.partition("\nprints:\n")
        yield Game(name, INCLUDE + source + "\n", lines.split("\n"), printed.strip("\n"))


def stored(path):
    """A game that has a file of its own, with its lines."""
    lines = path.with_suffix(".lines").read_text().splitlines()
    return Game(path.stem, path.read_text(), lines, path.with_suffix(".txt").read_text())


def lantern():
    """The example, with its lines."""
    return stored(LANTERN)


def steps():
    """Those steps of the tutorial that include the library."""
    return [stored(path) for path in sorted(STEPS.glob("*.inf")) if INCLUDE in path.read_text()]


def without_dice(source):
    """The example without `random`."""
    for dice, fixed in DICE:
        source = source.replace(dice, fixed)
    return source


def standing(lines):
    """The lines typed so far, minus those undone."""
    kept = []
    for line in lines:
        if line == "/undo":
            del kept[-1:]
        else:
            kept.append(line)
    return kept


def random_lines(draw, count):
    """Lines of words that seldom make sense."""
    return [" ".join(draw.choices(WORDS, k=draw.choice((1, 1, 2, 2, 3, 4, 5, 6, 9)))) for _ in range(count)]


def for_inform(source):
    """A source as `inform` takes it."""
    return source if BY_INCLUDE else source.replace(INCLUDE, (LIBRARY / "rooms.inf").read_text())


def options():
    """The options of `inform` for such a source."""
    return ["--extended", "--large"] + (["--include", LIBRARY] if BY_INCLUDE else [])
