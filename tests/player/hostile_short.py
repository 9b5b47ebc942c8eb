"""Short stories of hostile code, and what they print: a jump into each byte of a row of instructions, and into a text;
routines whose bytes overlap, and code that is reached with different numbers of locals; code in dynamic memory, which
it changes while it runs, and across static base; branches and jumps to themselves; and places where no code is."""

from instructions import STACK, Variable, jump, one_operand, two_operands, variable_form
from marked_code import (
    COUNT, FAULT, LIMIT, LOCALS, NEXT, NOP, OTHER, QUITS, RESULT, RETURN_ZERO, SUM, TOO_LONG, WHERE,
    Case, add, branch_on, marked_story, set_to, signed,
)
from stories import DICTIONARY

INC = 0x95
ADD, SUBTRACT = 0x54, 0x55

INTO = 100
BYTES_LOADED = {66: 77, 164: 0x4200}


def into_each_byte():
    """A jump into each byte of a row of `inc`, which is a row of `loadb` from every other byte on."""

    def write(code):
        code.static()
        code.mark("act")
        code.put(*(set_to(Variable(number), value) for number, value in BYTES_LOADED.items()))
        code.put(set_to(SUM, 0), set_to(COUNT, 0), set_to(OTHER, 0), set_to(WHERE, 2))
        code.mark("again")
        code.put(one_operand(12, WHERE), [INC, SUM.number] * INTO, [NOP] * 3)
        for number, total in ((INC, COUNT), (NOP, OTHER)):
            code.put(add(total, Variable(number), total), set_to(Variable(number), 0))
        code.branch(branch_on(5, WHERE.number, 2 * INTO + 2), "out")
        code.jump("again")
        code.mark("out")
        code.show(SUM)
        code.show(COUNT)
        code.show(OTHER)
        code.again()

    # From an odd byte on, instructions of four bytes: the last one stores in another variable, and may load another
    # byte.
    rests = [2 * INTO - odd for odd in range(1, 2 * INTO, 2)]
    first = sum(77 for rest in rests if rest >= 4)
    last = sum(77 if rest % 4 == 3 else 0x42 for rest in rests)
    return Case("a jump into each byte", marked_story(write)[0], f"{INTO * (INTO + 1) // 2} {first} {last} \n")


def into_text():
    """A jump into a text, whose bytes are an instruction too."""

    def write(code):
        code.static()
        code.mark("act")
        code.put(set_to(SUM, 0), set_to(WHERE, 2))
        code.mark("again")
        code.put(one_operand(12, WHERE), [0xB2, INC, SUM.number], add(SUM, 10, SUM))
        code.put(two_operands(8, WHERE, 0, store=COUNT), two_operands(21, 5, WHERE, store=WHERE))
        code.branch(branch_on(2, SUM, 60), "again")
        code.show(SUM)
        code.again()

    # The places 2 and 3 in turn: the text "0k" is printed, or one is added; and ten each time.
    return Case("a jump into a text", marked_story(write)[0], "0k" * 3 + "63 \n")


OVERLAPPING = ("three", "five", "jump_three", "jump_five", "jump_seven")
DEPTH = 40


def overlapping(code, name, other):
    """A routine with three locals and, inside its first instructions, one with five. Both go on after it."""
    code.routine(name, 3, [NOP] * (code.scale() - 2), [0x14])
    code.mark(other)
    code.put([5, INC, SUM.number])


def shared(version):
    """Code that five routines share, which call one another: they have three, five and seven locals."""

    def write(code):
        code.static()
        code.mark("table")
        for name in OVERLAPPING:
            code.put(code.packed(name).to_bytes(2, "big"))
        for name, variables in (("jump_three", 3), ("jump_five", 5), ("jump_seven", 7)):
            code.routine(name, variables)
            code.jump("shared")
        overlapping(code, "three", "five")
        code.mark("shared")
        code.put(add(OTHER, SUM, OTHER))
        code.branch(one_operand(0, LOCALS[1]), "zero")
        code.put(two_operands(21, LOCALS[1], 1, store=LOCALS[2]), two_operands(15, code.at("table"), COUNT, store=NEXT))
        code.put(add(COUNT, 1, COUNT), two_operands(24, COUNT, len(OVERLAPPING), store=COUNT))
        code.put(variable_form(0, NEXT, LOCALS[2], store=LOCALS[3]), add(LOCALS[3], LOCALS[1], LOCALS[3]))
        code.put(one_operand(11, LOCALS[3]))
        code.mark("zero")
        code.put(RETURN_ZERO)
        code.mark("act")
        code.put(set_to(SUM, 0), set_to(OTHER, 0), set_to(COUNT, 0))
        for name in OVERLAPPING:
            code.put(variable_form(0, code.packed(name), DEPTH, store=RESULT))
            code.show(RESULT)
        code.show(OTHER)
        code.again()

    total = kept = count = 0
    for name in OVERLAPPING:
        for _ in range(DEPTH + 1):
            # The first adds 5 and 149 (the bytes of the other one), the second increments.
            total = 5 + INC if name == "three" else total + (name == "five")
            kept += total
            name = OVERLAPPING[count]
            count = (count + 1) % len(OVERLAPPING)
        # The last call of each calls no other.
        count = (count - 1) % len(OVERLAPPING)
    sums = f"{DEPTH * (DEPTH + 1) // 2} " * len(OVERLAPPING)
    title = f"routines that share code, version {version}"
    return Case(title, marked_story(write, version)[0], f"{sums}{kept} \n")


def fifth_local(names, text, is_fault):
    """Code that reads and writes its fifth local, reached by these routines in turn."""

    def write(code):
        code.static()
        for name, variables in (("jump_three", 3), ("jump_five", 5), ("jump_seven", 7)):
            code.routine(name, variables)
            code.jump("shared")
        overlapping(code, "three", "five")
        code.mark("shared")
        code.put(variable_form(6, LOCALS[1]))
        code.mark("fifth")
        code.put(add(LOCALS[5], LOCALS[1], LOCALS[5]), one_operand(11, LOCALS[5]))
        code.mark("act")
        for name in names:
            code.put(variable_form(0, code.packed(name), 6, 5, 4, store=RESULT))
            code.show(RESULT)
        code.again()

    story, marks = marked_story(write)
    status, fault = (FAULT, marks["fifth"]) if is_fault else (QUITS, None)
    return Case(f"a fifth local in {', '.join(names)}", story, text, status, fault)


def no_locals():
    """A jump from the first environment, which has no locals, into code of a routine that was run before."""

    def write(code):
        code.static()
        code.routine("one", 1)
        code.mark("shared")
        code.put(add(LOCALS[1], 1, LOCALS[1]), one_operand(11, LOCALS[1]))
        code.mark("act")
        code.put(variable_form(0, code.packed("one"), 41, store=RESULT))
        code.show(RESULT)
        code.jump("shared")

    story, marks = marked_story(write)
    return Case("a jump out of the first environment", story, "42 \n[Machine fault: M3]\n", FAULT, marks["shared"])


ROUNDS = 300


def changes_itself():
    """Code in dynamic memory, which changes its opcode, its constant, and a routine's number of locals."""

    def write(code):
        code.align()
        code.mark("routine")
        code.put([3], add(LOCALS[1], LOCALS[3], LOCALS[1]))
        code.branch(one_operand(0, OTHER), "plain")
        code.put(add(LOCALS[1], LOCALS[5], LOCALS[1]))
        code.mark("plain")
        code.put(one_operand(11, LOCALS[1]))
        code.mark("act")
        code.put(set_to(SUM, 0), set_to(COUNT, 0))
        code.mark("again")
        code.put(two_operands(9, COUNT, 1, store=OTHER), add(OTHER, ADD, NEXT))
        code.put(variable_form(2, code.at("changed"), 0, NEXT), variable_form(2, code.at("changed"), 2, COUNT))
        code.put(add(OTHER, OTHER, NEXT), add(NEXT, 3, NEXT), variable_form(2, code.at("routine"), 0, NEXT))
        code.mark("changed")
        code.put([ADD, SUM.number, 0, SUM.number])
        code.put(variable_form(12, code.packed("routine"), 1, 2, 30, 4, 500, store=RESULT, size=8))
        code.put(add(SUM, RESULT, SUM))
        code.branch(branch_on(5, COUNT.number, ROUNDS - 1), "again", False)
        code.show(SUM)
        code.again()

    total = 0
    for number in range(ROUNDS):
        total += -(number % 256) + 531 if number % 2 else number % 256 + 31
    return Case("code that changes itself", marked_story(write)[0], f"{signed(total)} \n")


# What is done across static base: the bytes of an instruction of two operands, and the opcode that it has in every
# other round.
ACROSS = {
    "a sum": ([ADD, SUM.number, 7, SUM.number], SUBTRACT),
    "a branch": ([0x42, SUM.number, 7, 0xC0 + 2 + len(add(SUM, 50, SUM))], 0x43),
    "a call": ([0x59, NEXT.number, 7, SUM.number], ADD),
}


def after_round(kind, routine, number, bound, total):
    """What a round makes of the sum."""
    is_odd = number % 2
    if kind == "a sum":
        return total - bound if is_odd else total + bound
    if kind == "a branch":
        # `jl`, or `jg`, leads over the first sum.
        is_taken = total > bound if is_odd else total < bound
        return total + (1 if is_taken else 51)
    # The routine adds to its argument what the sum was; in every other round its address is added instead.
    return routine + bound if is_odd else total + bound


def across(behind, kind):
    """An instruction of which so many bytes lie below static base, in a loop from dynamic memory into static memory.
    The first byte is changed, and the third one where it can be."""
    changed, opcode = ACROSS[kind]

    def write(code):
        code.mark("act")
        code.put(set_to(SUM, 0), set_to(COUNT, 0))
        code.mark("again")
        code.put(set_to(WHERE, changed[0]), two_operands(9, COUNT, 1, store=STACK))
        code.branch(one_operand(0, STACK), "even")
        code.put(set_to(WHERE, opcode))
        code.mark("even")
        code.put(variable_form(2, code.at("changed"), 0, WHERE), set_to(NEXT, code.packed("routine")))
        if behind > 2:
            code.put(variable_form(2, code.at("changed"), 2, COUNT))
        code.mark("changed")
        code.put(changed[:behind])
        code.mark("static")
        code.put(changed[behind:])
        if kind == "a branch":
            code.put(add(SUM, 50, SUM), add(SUM, 1, SUM))
        code.branch(branch_on(5, COUNT.number, 99), "again", False)
        code.show(SUM)
        code.again()
        code.mark("dictionary")
        code.put(DICTIONARY)
        code.routine("routine", 1, add(LOCALS[1], SUM, LOCALS[1]), one_operand(11, LOCALS[1]))

    story, marks = marked_story(write)
    total = 0
    for number in range(100):
        total = signed(after_round(kind, marks["routine"] // 4, number, number if behind > 2 else 7, total))
    return Case(f"{kind} with {behind} bytes below static base", story, f"{total} \n")


def between():
    """Two routines call each other: one is in dynamic memory and changes its constant, the other in static memory. They
    have different numbers of locals."""

    def write(code):
        code.routine("below", 2)
        code.branch(one_operand(0, LOCALS[1]), "zero")
        code.put(variable_form(2, code.at("constant") + 2, 0, LOCALS[1]))
        code.put(two_operands(21, LOCALS[1], 1, store=LOCALS[2]))
        code.put(variable_form(0, code.packed("above"), LOCALS[2], 9, store=LOCALS[2]))
        code.mark("constant")
        code.put([ADD, 2, 0, 2], one_operand(11, LOCALS[2]))
        code.mark("zero")
        code.put(RETURN_ZERO)
        code.static()
        code.routine("above", 5)
        code.put(variable_form(0, code.packed("below"), LOCALS[1], store=LOCALS[5]))
        code.put(add(LOCALS[5], LOCALS[2], LOCALS[5]), one_operand(11, LOCALS[5]))
        code.mark("act")
        code.put(variable_form(0, code.packed("below"), DEPTH, store=RESULT))
        code.show(RESULT)
        code.again()

    # Each call changes the constant, so that all those open add the last one, 1, as they return.
    return Case("calls between dynamic and static memory", marked_story(write)[0], f"{DEPTH * (1 + 9)} \n")


def writes_static():
    """Code that changes its last byte below static base, and then the first byte from static base on."""

    def write(code):
        code.mark("act")
        code.put(variable_form(2, code.at("static") - 1, 0, SUM.number), set_to(SUM, 3))
        code.put([ADD, SUM.number, 4])
        code.put([0])
        code.mark("static")
        code.show(SUM)
        code.mark("fault")
        code.put(variable_form(2, code.at("static"), 0, 0))
        code.mark("dictionary")
        code.put(DICTIONARY)

    story, marks = marked_story(write)
    return Case("a write from static base on", story, "7 \n[Machine fault: M4]\n", FAULT, marks["fault"])


def to_itself(number, operands, start, bound, fuel):
    """An `inc_chk` or `dec_chk` that branches to itself until it is past its bound. One more unit of fuel is spent by
    the jump to the next line."""

    def write(code):
        code.static()
        code.mark("act")
        code.put(set_to(COUNT, start))
        code.mark("itself")
        code.branch(branch_on(number, *operands), "itself", False)
        code.show(COUNT)
        code.again()

    story, _ = marked_story(write)
    past = bound + (1 if number == 5 else -1)
    spent = abs(bound - start)
    if fuel < spent:
        turn, status = TOO_LONG, LIMIT
    elif fuel == spent:
        turn, status = f"{past} \n{TOO_LONG}", LIMIT
    else:
        turn, status = f"{past} \n", QUITS
    name = "inc_chk" if number == 5 else "dec_chk"
    return Case(f"{name} that branches to itself, {fuel} units", story, turn, status, None, fuel)


def endless(title, part, fuel):
    """A branch to the address of its own instruction which is always taken, or a jump there."""

    def write(code):
        code.static()
        code.mark("act")
        code.show(1)
        code.mark("itself")
        code.jump("itself") if part is None else code.branch(part, "itself")

    return Case(f"{title} to itself, {fuel} units", marked_story(write)[0], f"1 {TOO_LONG}", LIMIT, None, fuel)


def into_itself():
    """A jump to its own second byte, where no opcode is."""

    def write(code):
        code.static()
        code.mark("act")
        code.put([0x8C, 0, 0])

    story, marks = marked_story(write)
    return Case("a jump into itself", story, "\n[Machine fault: M1]\n", FAULT, marks["act"] + 1)


def past_end(version):
    """Code that leads past the end of the story: its last instruction is cut off."""

    def write(code):
        code.static()
        code.mark("act")
        code.put([NOP] * ((-code.here() - 3) % code.scale()))
        code.mark("cut")
        code.put([ADD, SUM.number, 1])

    story, marks = marked_story(write, version)
    return Case(f"an instruction cut off, version {version}", story, "\n[Machine fault: M2]\n", FAULT, marks["cut"])


def no_place(title, part):
    """Code that goes on where no code is."""

    def write(code):
        code.static()
        code.mark("act")
        code.put(part(code))

    story, marks = marked_story(write)
    return Case(title, story, "\n[Machine fault: M2]\n", FAULT, marks["act"])


def too_many_locals():
    """A call of a routine that is the inside of another, with the number of its locals in a byte of an instruction."""

    def write(code):
        code.static()
        code.routine("outer", 1, [NOP] * (code.scale() - 2), [0x14])
        code.mark("inner")
        code.put([16, 32, SUM.number], RETURN_ZERO)
        code.mark("act")
        code.put(variable_form(25, code.packed("outer")))
        code.show(SUM)
        code.mark("fault")
        code.put(variable_form(25, code.packed("inner")))

    story, marks = marked_story(write)
    return Case("a routine with 16 locals", story, "48 \n[Machine fault: M2]\n", FAULT, marks["fault"])


# Addresses in the header and past the end of a short story.
IN_HEADER, PAST_END = 60, 0x1000
NO_PLACES = (
    ("a jump into the header", lambda code: jump(IN_HEADER - code.here() - 3)),
    ("a jump past the end of the story", lambda code: jump(PAST_END - code.here() - 3)),
    ("a branch into the header", lambda code: code.branching(branch_on(1, 0, 0), IN_HEADER)),
    ("a branch past the end of the story", lambda code: code.branching(branch_on(1, 0, 0), PAST_END)),
    ("a call past the end of the story", lambda code: variable_form(25, PAST_END // code.scale())),
)

ITSELF = (
    ("jump", None),
    ("je", branch_on(1, 7, 7)),
    ("je of four", branch_on(1, 7, 1, 2, 7)),
    ("jl", branch_on(2, -1, 0)),
    ("jg", branch_on(3, 1, -1)),
    ("test", branch_on(7, 7, 5)),
    ("jz", one_operand(0, 0)),
)


def short_cases():
    """All cases but those of long stories."""
    yield into_each_byte()
    yield into_text()
    yield from (shared(version) for version in (5, 8))
    yield fifth_local(("five", "jump_five", "jump_seven", "five"), "66 66 66 66 \n", False)
    for name in ("three", "jump_three"):
        yield fifth_local(("five", "jump_seven", name), "66 66 6\n[Machine fault: M3]\n", True)
    yield no_locals()
    yield changes_itself()
    yield from (across(behind, kind) for behind in (1, 2, 3) for kind in ACROSS)
    yield between()
    yield writes_static()
    for fuel in (1, 299, 300, 301):
        yield to_itself(5, (COUNT.number, 300), 0, 300, fuel)
        yield to_itself(4, (COUNT.number, -300), 0, -300, fuel)
    yield from (endless(title, part, fuel) for title, part in ITSELF for fuel in (1, 2, 1000))
    yield into_itself()
    yield from (past_end(version) for version in (5, 8))
    yield from (no_place(title, part) for title, part in NO_PLACES)
    yield too_many_locals()
