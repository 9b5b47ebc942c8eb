"""Stories of 512 KB of hostile code, and what they print: different instructions in a straight line; bytes that are
decoded at two places, or for each number of locals; and jumps from each instruction to the next one, or the one
before."""

from instructions import Variable, jump, one_operand, two_operands, variable_form
from marked_code import (
    COUNT, LOCALS, NOP, RESULT, RETURN_ZERO, SUM, Case, add, branch_on, marked_story, set_to, signed,
)

INC = 0x95

LONGEST = 524280
LONG_BODY = LONGEST - 4096

KINDS = 6


def nth(number):
    """The instruction of a number, which differs from those near it, and what it does to the globals."""
    source, goal = Variable(40 + number * 7 % 180), Variable(40 + number * 11 % 180)
    constant = number * 31 % 0x10000
    code = (
        add(source, constant, goal),
        two_operands(21, constant, source, store=goal),
        two_operands(22, source, constant, store=goal),
        two_operands(9, source, constant, store=goal),
        two_operands(13, goal.number, constant),
        one_operand(5, goal.number),
    )

    def does(globals_):
        value = globals_[source.number]
        globals_[goal.number] = (
            value + constant,
            constant - value,
            value * constant,
            value & constant,
            constant,
            globals_[goal.number] + 1,
        )[number % KINDS] % 0x10000

    return code[number % KINDS], does


def over_next(number, length):
    """A test of a number that branches over so many bytes, and whether it does."""
    source = Variable(40 + number * 13 % 180)
    opcode, constant = 2 + number % 2, number * 37 % 0x10000
    code = branch_on(opcode, source, constant) + [0xC0 + length + 2]

    def is_taken(globals_):
        value = signed(globals_[source.number])
        return value > signed(constant) if number % 2 else value < signed(constant)

    return code, is_taken


def straight(length, has_branches):
    """Instructions of so many bytes, all of them different, and what they do."""
    code, acts, number = bytearray(), [], 0
    while len(code) + 24 < length:
        part, does = nth(number)
        test, is_taken = over_next(number, len(part)) if has_branches else ([], None)
        code += bytes(test) + bytes(part)
        acts.append((is_taken, does))
        number += 1
    return code, acts


def distinct(has_branches):
    """A story of 512 KB of different instructions in a straight line, which each turn does twice."""
    body, acts = straight(LONG_BODY, has_branches)

    def write(code):
        code.static()
        code.mark("act")
        code.put(*(set_to(Variable(number), number) for number in range(40, 220)), set_to(SUM, 0))
        code.put(variable_form(25, code.packed("long")), variable_form(25, code.packed("long")))
        for number in range(40, 220):
            code.put(two_operands(22, SUM, 3, store=SUM), add(SUM, Variable(number), SUM))
        code.show(SUM)
        code.again()
        code.routine("long", 0, body, RETURN_ZERO)

    globals_ = {number: number for number in range(40, 220)}
    for is_taken, does in acts * 2:
        if not (is_taken and is_taken(globals_)):
            does(globals_)
    total = 0
    for number in range(40, 220):
        total = total * 3 + globals_[number]
    title = "512 KB of different instructions" + (" and branches" if has_branches else "")
    return Case(title, marked_story(write, 8, LONGEST)[0], f"{signed(total)} \n", is_long=True)


def at_two_places():
    """A story of 512 KB whose bytes are `inc` and its operand, or its operand and `inc`."""
    count = LONG_BODY

    def write(code):
        code.static()
        code.routine("odd", 0)
        code.put(jump(code.at("first") + 1 - code.here() - 3))
        code.mark("act")
        code.put(set_to(Variable(INC), 0), set_to(Variable(NOP), 0))
        for name in ("even", "odd", "even"):
            code.put(variable_form(25, code.packed(name)))
            code.show(Variable(INC))
        code.show(Variable(NOP))
        code.again()
        code.routine("even", 0)
        code.mark("first")
        code.put([INC] * count, [NOP] * 2, RETURN_ZERO)

    half = count // 2
    sums = " ".join(str(signed(value)) for value in (half, half + half - 1, 3 * half - 1))
    return Case("512 KB at two places each", marked_story(write, 8, LONGEST)[0], f"{sums} 1 \n", is_long=True)


def for_each_number(length):
    """A story of 512 KB that does the same code with each number of locals, from 1 to 15, twice."""

    def write(code):
        code.static()
        for variables in range(1, 16):
            code.routine(f"from {variables}", variables)
            code.jump("shared")
        code.mark("act")
        code.put(set_to(SUM, 0))
        for variables in [*range(1, 16), *range(15, 0, -1)]:
            code.put(variable_form(0, code.packed(f"from {variables}"), 5, store=RESULT), add(SUM, RESULT, SUM))
        code.show(SUM)
        code.again()
        code.mark("shared")
        code.put(one_operand(5, 1) * length, one_operand(11, LOCALS[1]))

    total = signed(30 * (5 + length))
    return Case("512 KB for each number of locals", marked_story(write, 8, LONGEST)[0], f"{total} \n", is_long=True)


def one_byte_each():
    """A story of 512 KB of `nop`, between two sums."""

    def write(code):
        code.static()
        code.mark("act")
        code.put(set_to(SUM, 0))
        for _ in range(3):
            code.put(variable_form(25, code.packed("long")))
        code.show(SUM)
        code.again()
        one_more = one_operand(5, SUM.number)
        code.routine("long", 0, one_more, [NOP] * LONG_BODY, one_more, RETURN_ZERO)

    return Case("512 KB of one byte each", marked_story(write, 8, LONGEST)[0], "6 \n", is_long=True)


def hopping(is_back):
    """A story of 512 KB of jumps, each to the next one or to the one before it, over a byte that is no opcode."""
    part = one_operand(5, SUM.number) + jump(-11 if is_back else 1) + [0]
    count = LONG_BODY // len(part)

    def write(code):
        code.static()
        code.mark("act")
        code.put(set_to(SUM, 0), variable_form(25, code.packed("begin")) * 2)
        code.show(SUM)
        code.again()
        if is_back:
            code.put(RETURN_ZERO, [0] * (len(part) - 1), part * (count - 1))
            code.mark("last")
            code.put(part)
            code.routine("begin", 0)
            code.jump("last")
        else:
            code.routine("begin", 0, part * count, RETURN_ZERO)

    title = f"512 KB of jumps {'back' if is_back else 'ahead'}"
    return Case(title, marked_story(write, 8, LONGEST)[0], f"{signed(count * 2)} \n", is_long=True)


def alternating():
    """A loop of 16 KB, which is reached with another number of locals in each round."""
    count, rounds = 8000, 200

    def write(code):
        code.static()
        for variables in (3, 5):
            code.routine(f"from {variables}", variables)
            code.jump("shared")
        code.mark("act")
        code.put(set_to(SUM, 0), set_to(COUNT, 0))
        code.mark("again")
        for variables in (3, 5):
            code.put(variable_form(0, code.packed(f"from {variables}"), COUNT, store=RESULT), add(SUM, RESULT, SUM))
        code.branch(branch_on(5, COUNT.number, rounds - 1), "again", False)
        code.show(SUM)
        code.again()
        code.mark("shared")
        code.put(one_operand(5, 1) * count, one_operand(11, LOCALS[1]))

    total = sum(2 * (number + count) for number in range(rounds))
    story, _ = marked_story(write, 8, LONGEST)
    return Case("16 KB with two numbers of locals in turn", story, f"{signed(total)} \n", is_long=True)


def idle():
    """A story of 512 KB that does nothing: what a player takes for a story as such."""

    def write(code):
        code.static()
        code.mark("act")
        code.again()

    return Case("512 KB that are not run", marked_story(write, 8, LONGEST)[0], "\n", is_long=True)


def long_cases():
    """The cases of long stories."""
    yield from (distinct(has_branches) for has_branches in (False, True))
    yield at_two_places()
    yield for_each_number(100000)
    yield one_byte_each()
    yield from (hopping(is_back) for is_back in (False, True))
    yield alternating()
