"""The instructions of a routine in a story (Z-Machine Standards Document 1.1, sections 3, 4 and 14), one after another, for
the scripts beside it. They are those of the profile, in version 5 or 8."""

ALPHABETS = ("abcdefghijklmnopqrstuvwxyz", "ABCDEFGHIJKLMNOPQRSTUVWXYZ", " \n0123456789.,!?_#'\"/\\-:()")

# The opcodes that store a result, that branch, and that are followed by a text, by how many operands they take.
STORES = {"2OP": {8, 9, *range(15, 26)}, "1OP": {1, 2, 3, 4, 8, 14}, "0OP": {9}, "VAR": {0, 4, 7, 12, 22, 23, 24}}
BRANCHES = {"2OP": {1, 2, 3, 4, 5, 6, 7, 10}, "1OP": {0, 1, 2}, "0OP": {13, 15}, "VAR": {23, 31}}
TEXTS = {"0OP": {2, 3}}
TWO_BYTES_OF_TYPES = {12, 26}


def word(story, at):
    return story[at] * 256 + story[at + 1]


def characters_at(story, at):
    """The Z-characters of a text, and the address after it."""
    found, is_last = [], False
    while not is_last:
        value = word(story, at)
        is_last = value >= 0x8000
        found += [value >> 10 & 31, value >> 5 & 31, value & 31]
        at += 2
    return found, at


def text_at(story, at, may_abbreviate=True):
    """The text at an address, and the address after it."""
    found, end = characters_at(story, at)
    text, alphabet, place = "", 0, 0
    while place < len(found):
        code = found[place]
        place += 1
        shown, alphabet = alphabet, 0
        if code == 0:
            text += " "
        elif code <= 3:
            if place < len(found) and may_abbreviate:
                entry = word(story, 0x18) + 2 * (32 * (code - 1) + found[place])
                text += text_at(story, 2 * word(story, entry), False)[0]
            place += 1
        elif code <= 5:
            alphabet = code - 3
        elif shown == 2 and code == 6:
            if place + 1 < len(found):
                text += chr(found[place] * 32 + found[place + 1])
            place += 2
        else:
            text += ALPHABETS[shown][code - 6]
    return text, end


def kinds_of(byte):
    return [byte >> 6 & 3, byte >> 4 & 3, byte >> 2 & 3, byte & 3]


def instruction_at(story, at):
    """An instruction: how many operands its opcode takes, the opcode's number, the text behind it, and the address after
    it."""
    first = story[at]
    at += 1
    if first < 0x80:
        count, number, kinds = "2OP", first & 31, [1 + (first >> 6 & 1), 1 + (first >> 5 & 1)]
    elif first < 0xB0:
        count, number, kinds = "1OP", first & 15, [first >> 4 & 3]
    elif first < 0xC0:
        count, number, kinds = "0OP", first & 15, []
    else:
        count, number, kinds = "2OP" if first < 0xE0 else "VAR", first & 31, kinds_of(story[at])
        at += 1
        if count == "VAR" and number in TWO_BYTES_OF_TYPES:
            kinds += kinds_of(story[at])
            at += 1
    at += sum((2, 1, 1, 0)[kind] for kind in kinds)
    text = None
    if number in TEXTS.get(count, ()):
        text, at = text_at(story, at)
    if number in STORES[count]:
        at += 1
    if number in BRANCHES[count]:
        at += 1 if story[at] & 0x40 else 2
    return count, number, text, at


def instructions_of(story, begin, end):
    """The instructions from an address up to another: for each address how many operands, the number, and the text."""
    found = {}
    while begin < end:
        count, number, text, after = instruction_at(story, begin)
        found[begin] = (count, number, text)
        begin = after
    return found, begin
