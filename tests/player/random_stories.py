"""Stories of random instructions, for the scripts beside it. Each reads a line, does its instructions and begins again;
it has four objects, buffers and free memory, a text, and routines that its instructions call. Branches and jumps lead
to instructions, and most operands are what their instruction asks for; some are anything."""

import random

from instructions import STACK, Variable, ended, extended, kind, no_operand, one_operand, two_operands, variable_form
from stories import DICTIONARY, ENTRIES, story_of

# For each opcode its form, its number, a letter for each operand, and what follows: s a result, b a branch, l the place
# of a jump, t a text. The letters are those of `Scope.operand`. The 64 opcodes of the profile:
PROFILE = """
2OP 1 vv b   2OP 2 vv b   2OP 3 vv b   2OP 4 nv b   2OP 5 nv b   2OP 6 oo b   2OP 7 vv b   2OP 8 vv s   2OP 9 vv s
2OP 10 oa b  2OP 11 oa -  2OP 12 oa -  2OP 13 nv -  2OP 14 oo -  2OP 15 ri s  2OP 16 ri s  2OP 17 op s  2OP 18 op s
2OP 19 ej s  2OP 20 vv s  2OP 21 vv s  2OP 22 vv s  2OP 23 vd s  2OP 24 vd s  2OP 25 fv s  2OP 26 fv -
1OP 0 v b    1OP 1 o sb   1OP 2 o sb   1OP 3 o s    1OP 4 g s    1OP 5 n -    1OP 6 n -    1OP 7 x -    1OP 8 f s
1OP 9 o -    1OP 10 o -   1OP 11 v -   1OP 12 - l   1OP 13 z -   1OP 14 n s   1OP 15 f -
0OP 0 - -    0OP 1 - -    0OP 2 - t    0OP 3 - t    0OP 4 - -    0OP 8 - -    0OP 10 - -   0OP 11 - -
VAR 0 fvv s  VAR 1 wiv -  VAR 2 wiv -  VAR 3 ejv -  VAR 4 lq s   VAR 5 c -    VAR 6 v -    VAR 8 v -    VAR 9 n -
VAR 12 fvvvv s  VAR 24 v s  VAR 25 fvv -  VAR 26 fvvvv -  VAR 31 h b
"""

# The 35 further ones:
FURTHER = """
0OP 7 - -    0OP 9 - s    0OP 12 - -   0OP 13 - b   0OP 15 - b   2OP 27 vv -  2OP 28 vh -
VAR 7 v s    VAR 10 h -   VAR 11 h -   VAR 13 h -   VAR 14 h -   VAR 15 hh -  VAR 16 w -   VAR 17 h -   VAR 18 h -
VAR 19 h -   VAR 20 h -   VAR 21 h -   VAR 22 h s   VAR 23 vriy sb  VAR 27 lq -  VAR 28 rhiw -  VAR 29 rwv -
VAR 30 rhhh -
EXT 0 - s    EXT 1 - s    EXT 2 vv s   EXT 3 vv s   EXT 4 h s    EXT 9 - s    EXT 10 - s   EXT 11 v -   EXT 12 v s
EXT 13 hh -
"""

# What versions 1 to 4 have in place of the profile's opcodes of these numbers, and what they do not have:
OLDER = """
1OP 15 v s   0OP 5 - b    0OP 6 - b    0OP 9 - -    VAR 4 lq -
"""
OLDER_4 = """
1OP 15 v s   0OP 5 - s    0OP 6 - s    0OP 9 - -    VAR 4 lq -
"""
NOT_IN = {
    3: [("2OP", 25), ("1OP", 8), *(("VAR", n) for n in (12, 13, 14, 15, 16, 17, 18, 22, 23))],
    4: [],
}
NOT_IN[1] = NOT_IN[2] = NOT_IN[3] + [("0OP", 12), ("0OP", 13), *(("VAR", n) for n in (10, 11, 19, 20, 21))]
NOT_IN_OLDER = [("2OP", 26), ("2OP", 27), ("2OP", 28), ("0OP", 15), *(("VAR", n) for n in range(24, 32))]

READ = "VAR", 4
TWO_BYTES_OF_TYPES = {("VAR", 12), ("VAR", 26)}

# What ends a turn, a call or a story, which is rarer.
RARE = {("0OP", 0), ("0OP", 1), ("0OP", 3), ("0OP", 7), ("0OP", 8), ("0OP", 10), ("1OP", 11), ("2OP", 28), READ}
RARELY = 0.15
RETURNS = {("0OP", 0), ("0OP", 1), ("0OP", 3), ("0OP", 8), ("1OP", 11)}

# From ENTRIES on: objects and their property lists, a text buffer, a parse buffer, free memory, and a text; then static
# memory, where the code begins at a multiple of 8.
OBJECTS = bytes.fromhex(
    "80 00 00 00 00 01 00 00 00 00 00 02 02 D6 00 00 00 00 00 00 00 01 00 03 00 00 02 E9"
    "00 00 00 00 00 00 00 01 00 00 00 00 02 EB 00 00 00 00 00 00 00 00 00 00 00 00 02 F1"
    "02 35 51 C6 85 54 12 34 0A 07 86 86 00 01 00 02 00 03 00 00 00 01 94 A5 3F 09 00 00 83 80"
)
# the same objects in versions 1 to 3, whose entries are shorter
SMALL_OBJECTS = bytes.fromhex(
    "80 00 00 01 00 00 02 02 D6 00 00 00 00 01 03 00 02 E9 00 00 00 00 01 00 00 02 EB 00 00 00 00 00 00 00 02 F1"
    + "00" * 20
    + "02 35 51 C6 85 34 12 34 0A 07 A6 00 01 00 02 00 03 00 00 00 00 01 94 A5 1F 09 00 00 43 80 00 00 00"
)
LETTERS, WORDS, FREE, TEXT, STATIC = 768, 800, 832, 1024, 1049

# By how many bytes packed addresses count, and the greatest attribute.
SCALES = {1: 2, 2: 2, 3: 2, 4: 4, 5: 4, 7: 4, 8: 8}
LAST_ATTRIBUTE = {1: 31, 2: 31, 3: 31, 4: 47, 5: 47, 7: 47, 8: 47}
LAST_OLD, LAST_SMALL = 4, 3
# The Z-characters that shift to an alphabet or lock one; in version 1 also that of a new line.
SHIFTS = {1: (1, 2, 3, 4, 5), 2: (2, 3, 4, 5)}
CODE = STATIC + len(DICTIONARY)
SLOT = 256
FIRST_SLOT = CODE + 8
ROUTINES = 3
MAIN = FIRST_SLOT + (ROUTINES + 1) * SLOT

# What is done before some opcodes: the text buffer is emptied before a line is read into it, and the stack is filled
# before it is read.
EMPTY_BUFFER = variable_form(2, LETTERS, 1, 0)
PUSH = variable_form(8, 7)
BEFORE = {READ: EMPTY_BUFFER, ("VAR", 9): PUSH, ("0OP", 8): PUSH}

PROPERTIES = (1, 3, 5, 7, 10, 20, 63, 0)
GLOBALS = range(16, 40)
EXTREMES = (0, 1, 2, 63, 64, 65, 255, 256, 1048, 1049, 4096, 32767, 32768, 65534, 65535)


def opcodes(table):
    """The opcodes of a table."""
    words = table.split()
    rows = zip(words[::4], words[1::4], words[2::4], words[3::4])
    return [(form, int(number), operands.strip("-"), rest) for form, number, operands, rest in rows]


def table_of(version, tables):
    """The opcodes of these tables that a version has, and its own."""
    found = [opcode for text in tables for opcode in opcodes(text)]
    if version > LAST_OLD:
        return found
    own = opcodes(OLDER if version <= LAST_SMALL else OLDER_4)
    gone = {(form, number) for form, number, _, _ in own} | set(NOT_IN[version]) | set(NOT_IN_OLDER)
    return own + [opcode for opcode in found if opcode[:2] not in gone and opcode[0] != "EXT"]


def words_of_text(version):
    """A text of some letters and spaces, in versions 1 and 2 also of shifts."""
    count = random.randint(1, 4)
    characters = [0, *SHIFTS.get(version, ()), *range(6, 32)]
    words = [sum(random.choice(characters) << shift for shift in (10, 5, 0)) for _ in range(count)]
    words[-1] |= 0x8000
    return [byte for word in words for byte in word.to_bytes(2, "big")]


class Scope:
    """Where an instruction is: the version, how many locals there are, and the wildness: how often an operand is
    anything, from 0 to 1."""

    def __init__(self, version, variables, wildness):
        self.version = version
        self.scale = SCALES[version]
        self.last_attribute = LAST_ATTRIBUTE[version]
        self.locals = variables
        self.wildness = wildness

    def slot(self, number):
        """A packed address."""
        return (FIRST_SLOT + number * SLOT) // self.scale

    def variable(self):
        return random.choice([*GLOBALS, *range(1, self.locals + 1)])

    def value(self):
        """A number or a variable."""
        kinds = (random.randint(0, 20), Variable(self.variable()), Variable(self.variable()), random.randint(0, 65535))
        return random.choice(kinds)

    def operand(self, letter):
        if random.random() < self.wildness:
            return random.choice([*EXTREMES, random.randint(0, 65535), STACK, Variable(random.randint(0, 255))])
        makers = {
            "v": self.value,
            "n": self.variable,
            "o": lambda: random.randint(1, 4),
            "a": lambda: random.randint(0, self.last_attribute),
            "p": lambda: random.choice(PROPERTIES),
            "e": lambda: 1,
            "j": lambda: random.choice([10, 20]),
            "d": lambda: random.choice([-32768, -5, -1, 1, 2, 3, 100, 32767]) % 65536,
            "g": lambda: random.choice([0, 734, 735, 739, 740, 750]),
            "r": lambda: random.choice([FREE, LETTERS, STATIC, random.randint(0, MAIN)]),
            "w": lambda: random.randint(FREE, TEXT - 40),
            "i": lambda: random.randint(0, 9),
            "h": lambda: random.randint(0, 5),
            "y": lambda: random.choice([1, 2, 0x81, 0x82, 0x83]),
            "f": lambda: self.slot(random.randint(1, ROUTINES)),
            "z": lambda: self.slot(0),
            "x": lambda: TEXT,
            "l": lambda: LETTERS,
            "q": lambda: random.choice([WORDS, WORDS, 0]),
            "c": lambda: random.choice([13, *range(32, 127)]),
        }
        return makers[letter]()


def encoded_opcode(form, number, operands, store):
    """An instruction without its branch. A short 2OP is in long form as often as not."""
    if form == "2OP" and len(operands) == 2 and 0 not in map(kind, operands) and random.random() < 0.5:
        first, second = operands
        byte = number + 0x40 * (kind(first) == 2) + 0x20 * (kind(second) == 2)
        return ended([byte] + [getattr(operand, "number", operand) for operand in operands], store, None)
    if form == "VAR":
        size = 8 if (form, number) in TWO_BYTES_OF_TYPES else 4
        return variable_form(number, *operands, store=store, size=size)
    if form == "1OP" and not operands:
        return [0x80 + number]
    return {"0OP": no_operand, "1OP": one_operand, "2OP": two_operands, "EXT": extended}[form](
        number, *operands, store=store
    )


def instruction(table, scope):
    """A random instruction, and the kind of place that its last two bytes lead to: branch, jump or none."""
    while True:
        form, number, letters, rest = random.choice(table)
        is_return = (form, number) in RETURNS and scope.locals == 0
        if (form, number) not in RARE or (random.random() < RARELY and not is_return):
            break
    store = Variable(scope.variable()) if "s" in rest else None
    code = encoded_opcode(form, number, [scope.operand(letter) for letter in letters], store)
    if "t" in rest:
        code = code + words_of_text(scope.version)
    code = BEFORE.get((form, number), []) + code
    place = "branch" if "b" in rest else "jump" if "l" in rest else None
    return (code + [0, 0] if place else code), place


def joined(parts, scope):
    """The code of instructions, of which each branch and each jump leads to one of them; most of them lead on."""
    starts = [0]
    last = len(parts) - 1
    for code, _ in parts:
        starts.append(starts[-1] + len(code))
    for index, (code, place) in enumerate(parts):
        if place is None:
            continue
        is_back = random.random() < 0.08
        target = random.randint(0, index) if is_back else random.randint(min(index + 1, last), last)
        offset = starts[target] - starts[index + 1] + 2
        if place == "branch" and scope.locals and random.random() < 0.1:
            offset = random.choice([0, 1])
        if place == "loop":
            offset = 2 - starts[index + 1]
        word = offset % 65536 if place != "branch" else offset % 0x4000 + random.choice([0, 0x8000])
        code[-2:] = word.to_bytes(2, "big")
    return [byte for code, _ in parts for byte in code]


def body(table, scope, first, last, room):
    """The code of random instructions between a first and a last one, in so many bytes."""
    while True:
        count = random.randint(2, 24)
        code = joined([(list(first), None), *(instruction(table, scope) for _ in range(count)), last], scope)
        if len(code) <= room:
            return code


def routine(table, version, wildness):
    """A routine with some locals, in a slot."""
    variables = random.randint(1, 4)
    last = one_operand(11, random.randint(0, 255)), None
    values = [random.choice((0, 0, 1, 255)) for _ in range(2 * variables)] if version <= LAST_OLD else []
    room = SLOT - 1 - len(values)
    code = [variables] + values + body(table, Scope(version, variables, wildness), [], last, room)
    return bytes(code).ljust(SLOT, b"\0")


def random_story(tables, wildness, version):
    """A story of random instructions from tables of opcodes, of a wildness."""
    table = table_of(version, tables)
    scope = Scope(version, 0, wildness)
    store = Variable(16) if version > LAST_OLD else None
    first = variable_form(5, ord(">")) + EMPTY_BUFFER + variable_form(4, LETTERS, WORDS, store=store)
    main = body(table, scope, first, ([0x8C, 0, 0], "loop"), SLOT * 4)
    text = bytes(words_of_text(version)).ljust(SLOT, b"\0")
    slots = text + b"".join(routine(table, version, wildness) for _ in range(ROUTINES))
    begin = bytes([0x8C]) + (MAIN - CODE - 1).to_bytes(2, "big")
    entries = bytearray(STATIC - ENTRIES)
    objects = OBJECTS if version > LAST_SMALL else SMALL_OBJECTS
    for place, part in ((ENTRIES, objects), (LETTERS, b"\x14"), (WORDS, b"\x04"), (TEXT, bytes(words_of_text(version)))):
        entries[place - ENTRIES : place - ENTRIES + len(part)] = part
    code = begin.ljust(FIRST_SLOT - CODE, b"\0") + slots + bytes(main)
    return story_of(code, version=version, entries=bytes(entries))
