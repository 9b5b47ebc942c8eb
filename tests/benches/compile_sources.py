"""Sources for `compile_time`: of routines, of objects, of texts, of words and of all four, as heavy as asked. Each is
accepted by `inform` and by Inform 6, and is the same at every run: what looks like chance is counted from a seed."""

import random
import re

KINDS = ("routines", "objects", "texts", "words", "mixed")

# Weights of docs/LANGUAGE.md, "Limits": of a token, and of a byte between the quotes of a text.
TOKEN = 32
TEXT_BYTE = 3

# The tokens of a source: texts, words, numbers and names, and signs, the longest first.
TOKENS = re.compile(r"""("[^"]*")|'[^']*'|\w+|-->|->|\.#|\.&|\+\+|--|==|~=|<=|>=|&&|\|\||\S""")

ATTRIBUTES = ("lit", "open", "worn", "locked", "scenery")
PROPERTIES = ("size", "exits", "weight", "mood")
GLOBALS = ("score", "turns", "place")

SYLLABLES = "ba ce di fo gu ha ki lo mi no pa re si to ul va we yo za er".split()

HEAD = f"""{"".join(f"Attribute {name};" for name in ATTRIBUTES)}
{"".join(f"Property {name};" for name in PROPERTIES)}
{"".join(f"Global {name};" for name in GLOBALS)}
[ Step a b; return a * 3 + b; ];
"""

MAIN = "[ Main; print Step(score, turns), place; ];\n"


def weight(source):
    """The weight of a source."""
    total = 0
    for token in TOKENS.finditer(source):
        total += TOKEN
        if token[1]:
            total += TEXT_BYTE * (len(token[1]) - 2)
    return total


class Maker:
    """Makes the parts of sources, each with names of its own."""

    def __init__(self, seed):
        self.chance = random.Random(seed)
        self.made = 0
        self.pool = sorted({self.word() for _ in range(2000)})

    def word(self):
        return "".join(self.chance.choice(SYLLABLES) for _ in range(self.chance.randint(1, 4)))

    def words(self, least, most):
        return " ".join(self.word() for _ in range(self.chance.randint(least, most)))

    def number(self):
        self.made += 1
        return self.made

    def routines(self):
        """A routine of loops, tests, arithmetic and calls."""
        lines = []
        for _ in range(self.chance.randint(4, 12)):
            n = self.chance.randint(1, 900)
            lines.append(
                self.chance.choice(
                    (
                        f"x = x * {n} + y - {n % 7 + 1};",
                        f"if (x > {n} && y ~= {n % 5}) x = x - {n}; else y++;",
                        f"for (i = 0 : i < {n} : i++) score = score + i;",
                        f"while (y < {n}) y = y + Step(x, {n});",
                        f"switch (x) {{ {n}: y = 1; {n + 1}: y = 2; default: x--; }}",
                        f"turns = Step(x, Step(y, {n}));",
                        f"if (x == {n} or {n + 1}) place = x / {n % 9 + 1};",
                    )
                )
            )
        body = "\n    ".join(lines)
        return f"[ Routine{self.number()} x y i;\n    {body}\n    return x + y + i;\n];\n"

    def objects(self):
        """An object with a short name, a word, two properties and an attribute."""
        n = self.chance.randint(1, 900)
        return (
            f'Object thing{self.number()} "{self.words(1, 2)}"\n'
            f"    with name '{self.chance.choice(self.pool)}', size {n}, exits {n} {n + 1}\n"
            f"    has {self.chance.choice(ATTRIBUTES)};\n"
        )

    def texts(self):
        """A routine that prints sentences."""
        lines = (f'print "{self.words(8, 20).capitalize()}, {self.words(3, 9)}.^";' for _ in range(6))
        return f"[ Text{self.number()};\n    " + "\n    ".join(lines) + "\n];\n"

    def word_lists(self):
        """An array of dictionary words."""
        words = " ".join(f"'{self.chance.choice(self.pool)}'" for _ in range(24))
        return f"Array list{self.number()} --> {words};\n"

    def part(self, kind):
        if kind == "mixed":
            kind = self.chance.choice(KINDS[:4])
        return self.word_lists() if kind == "words" else getattr(self, kind)()


def source_of(kind, most):
    """A source of a kind, whose weight is at most so much and nearly that."""
    maker = Maker(kind)
    parts = [HEAD]
    left = most - weight(HEAD) - weight(MAIN)
    while True:
        part = maker.part(kind)
        left -= weight(part)
        if left < 0:
            return "".join(parts) + MAIN
        parts.append(part)
