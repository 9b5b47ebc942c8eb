"""A story that counts, saves, restores and starts again, made byte by byte in several versions."""

import stories

# The place of versions 1 to 3, for the status line, and after it the buffers.
PLACE = 1
PROPERTIES = stories.ENTRIES + 16
BUFFER = stories.ENTRIES + 32
PARSE = BUFFER + 128

# How many letters and words the buffers have room for.
LETTERS, WORDS = 60, 30

# The word of the header whose lowest bit is set while the story's text goes to its transcript.
FLAGS_2 = 8

# Global variables: how many lines were counted, an answer or a letter, and the byte that ended a line.
COUNTED, SHOWN, ENDED = 0x40, 0x41, 0x42


class Code:
    """Instructions with labels."""

    def __init__(self, start):
        self.start, self.bytes, self.labels, self.branches = start, bytearray(), {}, []

    def add(self, *codes):
        self.bytes += bytes(codes)

    def label(self, name):
        self.labels[name] = len(self.bytes)

    def show(self, text):
        for letter in text:
            if letter == "\n":
                self.add(0xBB)
            else:
                self.add(0xE5, 0x7F, ord(letter))

    def branch(self, name):
        """The two bytes of a branch where a test holds."""
        self.branches.append((len(self.bytes), name, True))
        self.add(0, 0)

    def jump(self, name):
        self.add(0x8C)
        self.branches.append((len(self.bytes), name, False))
        self.add(0, 0)

    def whole(self):
        for place, name, is_branch in self.branches:
            offset = self.labels[name] - (place + 2) + 2
            word = 0x8000 | (offset & 0x3FFF) if is_branch else offset & 0xFFFF
            self.bytes[place : place + 2] = word.to_bytes(2, "big")
        return bytes(self.bytes)


def opcode_of(code, version, number):
    """`save` (0) or `restore` (1), whose answer is shown."""
    name = ("save", "restore")[number]
    if version >= 5:
        code.add(0xBE, number, 0xFF, SHOWN)
    elif version == 4:
        code.add(0xB5 + number, SHOWN)
    else:
        code.add(0xB5 + number)
        code.branch(f"{name} done")
        code.show("=0\n")
        code.jump("loop")
        code.label(f"{name} done")
        code.show("=1\n")
        code.jump("loop")
        return
    code.show("=")
    code.add(0xE6, 0xBF, SHOWN)
    code.show("\n")
    code.jump("loop")


def script(code, version):
    """Turns the transcript on, up to version 4 by a store, and shows whether it is on."""
    if version > 4:
        code.add(0xF3, 0x7F, 2)
    else:
        code.add(0x0F, 0, FLAGS_2, SHOWN)
        code.add(0x48, SHOWN, 1, SHOWN)
        code.add(0xE1, 0x5B, 0, FLAGS_2, SHOWN)
    code.add(0x0F, 0, FLAGS_2, SHOWN)
    code.add(0x49, SHOWN, 1, SHOWN)
    code.show("t")
    code.add(0xE6, 0xBF, SHOWN)
    code.show("\n")


def story(version, is_scripted=False):
    """A story that shows how many lines it has counted, and reads one: s saves, r restores, x starts again, q quits. Or
    it begins its transcript first."""
    code = Code(0)
    if is_scripted:
        script(code, version)
    code.label("loop")
    code.add(0xE6, 0xBF, COUNTED)
    code.show("> ")
    if version >= 5:
        # nothing is typed already, and an empty line has no letter
        for place in (1, 2):
            code.add(0xE2, 0x17, BUFFER >> 8, BUFFER & 255, place, 0)
        code.add(0xE4, 0x1F, BUFFER >> 8, BUFFER & 255, 0, ENDED)
    else:
        code.add(0xE4, 0x0F, BUFFER >> 8, BUFFER & 255, PARSE >> 8, PARSE & 255)
    code.add(0xD0, 0x1F, BUFFER >> 8, BUFFER & 255, 2 if version >= 5 else 1, SHOWN)
    for letter, name in (("s", "save"), ("r", "restore"), ("x", "again"), ("q", "quit")):
        code.add(0xC1, 0x9F, SHOWN, ord(letter))
        code.branch(name)
    code.add(0xD4, 0x9F, COUNTED, 1, COUNTED)
    code.jump("loop")
    code.label("save")
    opcode_of(code, version, 0)
    code.label("restore")
    opcode_of(code, version, 1)
    code.label("again")
    code.add(0xB7)
    code.label("quit")
    code.add(0xBA)
    entries = bytearray(288)
    entries[7:9] = PROPERTIES.to_bytes(2, "big")
    entries[16:20] = b"\x01\x98\xa5\x00"
    entries[BUFFER - stories.ENTRIES] = LETTERS
    entries[PARSE - stories.ENTRIES] = WORDS
    made = bytearray(stories.story_of(code.whole(), version, entries=bytes(entries)))
    stories.put(made, stories.GLOBALS, PLACE)
    return stories.summed(made)
