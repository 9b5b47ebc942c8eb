"""Stories whose code is written with marks, which branches, jumps and calls name, for the scripts beside it. Such a
story reads a line, goes on at the mark `act`, and begins again."""

from dataclasses import dataclass

from instructions import Variable, jump, no_operand, two_operands, variable_form
from stories import DEFAULTS, DICTIONARY, ENTRIES, GLOBALS, put, summed

# From ENTRIES on: a text buffer, then code.
BUFFER = ENTRIES
ROOM = 30
FIRST = BUFFER + ROOM + 4

NOP = 0xB4
RETURN_ZERO = no_operand(1)

SUM, COUNT, OTHER, WHERE, NEXT, RESULT = map(Variable, range(16, 22))
LOCALS = [Variable(number) for number in range(16)]

QUITS, REFUSED, LIMIT, FAULT = 0, 1, 3, 4
TOO_LONG = "\n[Limit: turn too long]\n"
FUEL = 1000000


class Code:
    """Code that is written again until the addresses of its marks are those that were known before. It says where
    static base and the dictionary are."""

    def __init__(self, known, version):
        self.bytes, self.marks, self.known, self.version = bytearray(), {}, known, version

    def at(self, name):
        """The address of a mark."""
        return self.known.get(name, 0x1000)

    def packed(self, name):
        """The packed address of a mark."""
        return self.at(name) // self.scale()

    def scale(self):
        return 4 if self.version == 5 else 8

    def here(self):
        return FIRST + len(self.bytes)

    def put(self, *parts):
        for part in parts:
            self.bytes += bytes(part)

    def mark(self, name):
        self.marks[name] = self.here()

    def align(self):
        self.put([NOP] * (-self.here() % self.scale()))

    def jump(self, name):
        """A jump to a mark."""
        self.put(jump(self.at(name) - self.here() - 3))

    def branching(self, part, address, is_on=True):
        """An instruction, to be put here, that branches to an address if its test is so."""
        offset = address - self.here() - len(part)
        return part + list((offset % 0x4000 + 0x8000 * is_on).to_bytes(2, "big"))

    def branch(self, part, name, is_on=True):
        """Puts an instruction that branches to a mark if its test is so."""
        self.put(self.branching(part, self.at(name), is_on))

    def routine(self, name, variables, *parts):
        """A routine with so many locals."""
        self.align()
        self.mark(name)
        self.put([variables], *parts)

    def static(self):
        """Static memory, which begins here with the dictionary."""
        self.mark("static")
        self.mark("dictionary")
        self.put(DICTIONARY)

    def show(self, variable):
        """Prints a number and a space."""
        self.put(variable_form(6, variable), variable_form(5, ord(" ")))

    def again(self):
        """Prints a new line and reads the next line."""
        self.put(no_operand(11))
        self.jump("read")


def marked_story(write, version=5, length=None):
    """The story of what a function writes, which goes on at the mark `act` with each line; and its marks."""
    known, code = None, Code({}, version)
    while code.marks != known:
        known = code.marks
        code = Code(known, version)
        code.mark("read")
        code.put(variable_form(5, ord(">")), variable_form(2, BUFFER, 1, 0), variable_form(4, BUFFER, 0, store=RESULT))
        code.jump("act")
        write(code)
        if "static" not in code.marks:
            code.static()
    marks = code.marks
    story = bytearray(FIRST) + code.bytes
    story += bytes(max(0, (length or 0) - len(story)))
    story += bytes(-len(story) % code.scale())
    story[0], story[BUFFER] = version, ROOM
    static = marks["static"]
    words = {2: 7, 4: static, 6: FIRST, 8: marks["dictionary"], 10: DEFAULTS, 12: GLOBALS, 14: static}
    for place, word in words.items():
        put(story, place, word)
    story[0x12:0x18] = b"261129"
    put(story, 0x1A, len(story) // code.scale())
    return summed(story), marks


def set_to(variable, value):
    """Sets a variable."""
    return two_operands(13, variable.number, value)


def add(first, second, store):
    return two_operands(20, first, second, store=store)


def signed(number):
    """A number modulo 65,536 as it is printed."""
    return (number + 0x8000) % 0x10000 - 0x8000


def branch_on(number, *operands):
    """An opcode of two operands that branches, without the branch."""
    return two_operands(number, *operands)


@dataclass
class Case:
    """A story, what its turn prints, the player's status, and where a fault is."""

    title: str
    story: bytes
    turn: str
    status: int = QUITS
    fault: int | None = None
    fuel: int = FUEL
    is_long: bool = False
