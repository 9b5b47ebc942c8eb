"""Stories made byte by byte, for the scripts beside it."""

GLOBALS = 64
DEFAULTS = GLOBALS + 480
ENTRIES = DEFAULTS + 126
DICTIONARY = bytes([3]) + b".,\"" + bytes([9, 0, 0])

# By how many bytes the header of a version states the length of its story.
UNITS = {1: 2, 2: 2, 3: 2, 4: 4, 5: 4, 7: 8, 8: 8}

# Where static memory and the code of a story without objects begin.
STATIC = ENTRIES
CODE = STATIC + len(DICTIONARY)

QUIT = b"\xba"
RANDOM = b"\xe7\x7f\x01\x00"


def put(story, place, word):
    """Puts a word at a place of a bytearray."""
    story[place : place + 2] = word.to_bytes(2, "big")


def summed(story):
    """The story with the sum that its bytes have."""
    story = bytearray(story)
    put(story, 0x1C, sum(story[64:]) % 65536)
    return bytes(story)


def story_of(code, version=5, length=None, entries=b""):
    """A story with entries of objects and this code, which begins with its first instruction. Without entries it is at
    CODE. The 31 defaults of versions 1 to 3 end at the entries, too."""
    scale = UNITS[version]
    defaults = DEFAULTS if version > 3 else DEFAULTS + 64
    static = ENTRIES + len(entries)
    start = static + len(DICTIONARY)
    size = length or (start + len(code) + scale - 1) // scale * scale
    story = bytearray(size)
    story[0] = version
    for place, word in ((2, 7), (4, start), (6, start), (8, static), (10, defaults), (12, GLOBALS), (14, static)):
        put(story, place, word)
    story[0x12:0x18] = b"261126"
    put(story, 0x1A, size // scale)
    story[ENTRIES:static] = entries
    story[static:start] = DICTIONARY
    story[start : start + len(code)] = code
    return summed(story)
