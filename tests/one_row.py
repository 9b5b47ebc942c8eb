"""One row of crates/rows, for ./demo:

    one_row.py write SOURCE    writes a row of the source file, whose lines are all of standard input
    one_row.py show            writes the transcript that the program has shown of it, and ends with the player's status

What is refused is said on standard error; the status is then 2 for a file that cannot be used, 1 for a source, and 5
where memory was refused to what is written."""

import re
import sys
from pathlib import Path

# The most bytes of a source, as `inform` has it.
MOST_BYTES = 67_108_864

# Each byte as a row writes it.
SIGNS = [bytes([byte]) if 32 <= byte <= 126 else b"\\x%02X" % byte for byte in range(256)]
SIGNS[ord("\n")], SIGNS[ord("\\")] = b"\\n", b"\\\\"

# What is shown for other bytes: a repeated part, a byte by its number, and another sign.
SHOWN = re.compile(rb"\\(?:(\d+)\{([^}]*)\}|x([0-9A-F]{2})|(.))")


def fail(status, words):
    """Ends with a message, as the program that ./demo is in place of."""
    print(f"demo: {words}", file=sys.stderr)
    sys.exit(status)


def one_line(name):
    """A file's name on one line."""
    return "".join(sign if sign.isprintable() else sign.encode("unicode_escape").decode() for sign in name)


def written(text):
    """Bytes as a row writes them."""
    return b"".join(SIGNS[byte] for byte in text)


def bytes_of(shown):
    """The bytes that are shown so."""

    def sign(found):
        count, part, code, other = found.groups()
        if count:
            return int(count) * bytes_of(part)
        return bytes([int(code, 16)]) if code else {b"n": b"\n", b"\\": b"\\"}[other]

    return SHOWN.sub(sign, shown)


def write(name):
    """Writes the row of a source file."""
    try:
        with open(name, "rb") as file:
            source = file.read(MOST_BYTES + 1)
    except OSError:
        fail(2, "cannot read the source")
    if len(source) > MOST_BYTES:
        fail(2, f"cannot read {one_line(name)}: it is larger than 67,108,864 bytes")
    lines = sys.stdin.buffer.read()
    sys.stdout.buffer.write(b"-- demo\nsource %s\nlast %s\n" % (written(source), written(lines)))


def show():
    """Writes the transcript of the row that is shown on standard input, and ends with its status or its fault."""
    _, *lines, end = sys.stdin.buffer.read().strip(b"\n").split(b"\n")
    for line in lines:
        sys.stdout.buffer.write(bytes_of(line[2:]))
    sys.stdout.flush()
    word, _, status = end.decode().partition(" ")
    if word == "status":
        sys.exit(int(status))
    fail(5 if end == b"S2" else 1, end.decode())


if __name__ == "__main__":
    if sys.argv[1:] == ["show"]:
        show()
    else:
        write(sys.argv[2])
