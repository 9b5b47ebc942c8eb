"""The random numbers of `play --standard`, which are those of the interpreter Frotz, and a story that rolls them, with
a model of what it prints, for the scripts beside it."""

import copy

from instructions import Variable, ever, jump, no_operand, one_operand, two_operands, variable_form
from stories import ENTRIES, story_of

MULTIPLIER = 22695477
COUNTS_FROM = 1000
DEFAULT_SEED = 12345


class Dice:
    """The generator, with its 32 bits. Called with a range, it answers as `random` does."""

    def __init__(self, seed=DEFAULT_SEED):
        self.bits, self.interval, self.counter = seed, 0, 0

    def __call__(self, span):
        if span > 0:
            return self.thrown(span)
        if -COUNTS_FROM < span:
            self.interval, self.counter = -span, 0
        else:
            self.bits, self.interval, self.counter = -span, 0, 0
        return 0

    def thrown(self, span):
        """A number from 1 to the range."""
        if self.interval:
            value = self.counter
            self.counter = (self.counter + 1) % self.interval
        else:
            self.bits = (self.bits * MULTIPLIER + 1) % 2**32
            value = self.bits >> 16 & 32767
        return 1 + value % span


# What the story does for a letter: the ranges that it rolls.
ROLLS = {
    "r": [100],
    "s": [6, 6, 6],
    "w": [32767, 32767],
    "n": [-3],
    "m": [-7, 5, 5],
    "o": [-999, 1000],
    "i": [-1, 6],
    "z": [0],
    "b": [-1000],
    "c": [-32768, 100],
}
# And after a roll: it begins anew (the number is not printed, since dfrotz would clear it away), quits, goes on for
# ever, or divides by 0.
RESTART, QUIT, LOOP, DIVIDE = "x", "q", "l", "d"
LETTERS = (*ROLLS, RESTART, QUIT, LOOP, DIVIDE)
FIRST_ROLL = 100

TEXT = ENTRIES
LETTERS_FROM = 2
ROOM = 20
ROLLED, TURNS, LETTER = Variable(16), Variable(17), Variable(18)


def silent_roll(span):
    """Rolls a number."""
    return variable_form(7, span, store=ROLLED)


def roll(span):
    """Rolls a number, and prints it and a space."""
    return silent_roll(span) + variable_form(6, ROLLED) + variable_form(5, ord(" "))


def rolls(spans):
    """Rolls a number in each range."""
    return [byte for span in spans for byte in roll(span)]


def where_letter_is(letter, code):
    """Does this where the line began with a letter."""
    offset = len(code) + 2
    return two_operands(1, LETTER, ord(letter), branch=[offset // 256, offset % 256]) + code


def story(version):
    """A story that rolls a number, and for each line tells how many came before it, and rolls by its first letter."""
    ends = {
        RESTART: silent_roll(FIRST_ROLL) + no_operand(7),
        QUIT: roll(FIRST_ROLL) + no_operand(10),
        LOOP: roll(FIRST_ROLL) + jump(-3),
        DIVIDE: roll(FIRST_ROLL) + two_operands(23, 1, 0, store=ROLLED),
    }
    loop = no_operand(11) + variable_form(6, TURNS) + variable_form(5, ord(">")) + variable_form(2, TEXT, 1, 0)
    loop += variable_form(4, TEXT, 0, store=ROLLED) + one_operand(5, TURNS.number)
    loop += two_operands(16, TEXT, LETTERS_FROM, store=LETTER)
    for letter, spans in ROLLS.items():
        loop += where_letter_is(letter, rolls(spans))
    for letter, end in ends.items():
        loop += where_letter_is(letter, end)
    code = bytes(roll(FIRST_ROLL) + ever(loop))
    return story_of(code, version=version, entries=bytes([ROOM]) + bytes(ROOM + LETTERS_FROM + 1))


class Game:
    """The story as it is between turns: its dice, how many lines it took, and the letter that is in its buffer."""

    def __init__(self, seed):
        self.seed = seed
        self.begin()

    def begin(self):
        self.dice, self.turns, self.letter, self.is_over = Dice(self.seed), 0, None, False

    def rolled(self, spans):
        return "".join(f"{self.dice(span)} " for span in spans)

    def opening(self):
        """What the story prints before the first line, from its beginning on."""
        self.begin()
        return self.rolled([FIRST_ROLL]) + self.prompt()

    def prompt(self):
        return f"\n{self.turns}>"

    def answered(self, line):
        """The story after a line, and what it prints for it."""
        game = copy.deepcopy(self)
        return game, game.answer(line)

    def answer(self, line):
        self.turns += 1
        self.letter = line[0] if line else self.letter
        if self.letter in ROLLS:
            return self.rolled(ROLLS[self.letter]) + self.prompt()
        if self.letter not in LETTERS:
            return self.prompt()
        if self.letter == RESTART:
            return self.opening()
        self.is_over = True
        notices = {QUIT: "", LOOP: "\n[Limit: turn too long]\n", DIVIDE: "\n[Machine fault: M7]\n"}
        return self.rolled([FIRST_ROLL]) + notices[self.letter]
