"""Instructions of the Z-machine byte by byte (Z-Machine Standards Document 1.1, section 4), for the scripts beside it.
An operand is a number or a variable; a code is a list of bytes."""


class Variable:
    """A variable: 0 is the stack, 1 to 15 are locals, 16 to 255 are globals."""

    def __init__(self, number):
        self.number = number


STACK = Variable(0)
OMITTED = 3


def kind(operand):
    """The type of an operand: 0 a large constant, 1 a small one, 2 a variable."""
    if isinstance(operand, Variable):
        return 2
    return 1 if 0 <= operand <= 255 else 0


def encoded(operand):
    """The bytes of an operand."""
    if isinstance(operand, Variable):
        return [operand.number]
    if 0 <= operand <= 255:
        return [operand]
    return [operand // 256 % 256, operand % 256]


def types(operands, size=4):
    """The bytes of the types of operands, of which there may be so many."""
    kinds = [kind(operand) for operand in operands] + [OMITTED] * (size - len(operands))
    return [sum(k << (6 - 2 * i) for i, k in enumerate(kinds[j : j + 4])) for j in range(0, size, 4)]


def ended(code, store, branch):
    """An instruction with the variable of its result and the bytes of its branch, where it has them."""
    if store is not None:
        code.append(store.number)
    if branch is not None:
        code.extend(branch)
    return code


def wide(operands):
    """Operands, with negative numbers modulo 65,536."""
    return [operand if isinstance(operand, Variable) else operand % 65536 for operand in operands]


def variable_form(number, *operands, store=None, branch=None, size=4):
    """An opcode of VAR; of `size` 8 where it has two bytes of types."""
    operands = wide(operands)
    code = [0xE0 + number] + types(operands, size)
    for operand in operands:
        code += encoded(operand)
    return ended(code, store, branch)


def two_operands(number, *operands, store=None, branch=None):
    """An opcode of 2OP, in variable form."""
    return [0xC0 + number] + variable_form(0, *operands, store=store, branch=branch)[1:]


def one_operand(number, operand, store=None, branch=None):
    """An opcode of 1OP."""
    (operand,) = wide([operand])
    return ended([0x80 + 16 * kind(operand) + number] + encoded(operand), store, branch)


def no_operand(number, store=None, branch=None):
    """An opcode of 0OP."""
    return ended([0xB0 + number], store, branch)


def extended(number, *operands, store=None, branch=None):
    """An opcode of EXT."""
    return [0xBE, number] + variable_form(0, *operands, store=store, branch=branch)[1:]


def jump(offset):
    """A jump from the end of its three bytes over so many bytes, or back."""
    return [0x8C] + list(((offset + 2) % 65536).to_bytes(2, "big"))


def ever(code):
    """A code that is done again and again."""
    return code + jump(-len(code) - 3)
