"""What `play --screen` writes for a reply, by crates/screen/specs, for the script beside it."""

ESCAPE, NEW_LINE, RETURN = 0x1B, 0x0A, b"\r"
OVER, NO_STATUS, NO_MEMORY = b"[The story is over.]\n", b"[No status line.]\n", b"[No memory: line not taken.]\n"


def shown(text):
    """A text without control characters but new lines."""
    out, before = bytearray(), 0
    for byte in text:
        if (byte < 32 and byte != NEW_LINE) or byte == 127:
            out.append(ord("?"))
        elif before == 0xC2 and 0x80 <= byte < 0xA0:
            out.append(0xBF)
        else:
            out.append(byte)
        before = byte
    return bytes(out)


STYLES = ((1, b";7"), (2, b";1"), (4, b";3"), (8, b";50"))


def mark(style):
    """The mark of a style."""
    return b"\x1b[0" + b"".join(part for bit, part in STYLES if style & bit) + b"m"


def marked(text, each):
    """A text with marks where its style changes; it ends plain."""
    out, before = b"", 0
    for byte, style in zip(text, each):
        out += (mark(style) if style != before else b"") + bytes([byte])
        before = style
    return out + (mark(0) if before else b"")


def unmarked(text):
    """A text without its marks, and the style of each byte."""
    out, each, style, at = bytearray(), [], 0, 0
    while at < len(text):
        if text[at] == ESCAPE:
            end = text.index(b"m", at)
            style = sum(bit for bit, part in STYLES if part[1:] in text[at + 3 : end].split(b";"))
            at = end + 1
        else:
            out.append(text[at])
            each.append(style)
            at += 1
    return bytes(out), each


def broken(text, columns):
    """A text with lines broken at words, for characters of one column."""
    out, column, start = bytearray(text), 0, 0
    for at in range(len(text) + 1):
        if at < len(text) and text[at] not in b" \n":
            continue
        width = len(text[start:at].decode(errors="replace"))
        if start and text[start - 1] == ord(" "):
            column += 1 + width
            if column > columns:
                out[start - 1], column = NEW_LINE, width
        else:
            column = width
        start = at + 1
    return bytes(out)


def sequence(number, letter):
    return b"\x1b[%03d%s" % (number, letter)


def counted(rows, letter):
    return sequence(rows, letter) if rows else b""


def above_last(rows):
    """The cursor goes to the row so many rows above the last one."""
    return sequence(255, b"H") + counted(rows, b"A")


def row_count(window):
    return window.count(b"\n") + 1 if window else 0


def upper(columns, high, window):
    """The upper window: blanks in reverse, and the characters for which there is room."""
    lines = window.split(b"\n")
    rows = b"".join(sequence(at + 1, b"H") + b" " * columns + RETURN + fitting(columns, lines[at]) for at in range(high))
    return b"\x1b[?7l\x1b[7m" + rows + b"\x1b[m\x1b[?7h"


def fitting(columns, line):
    return line.decode(errors="surrogateescape")[:columns].encode(errors="surrogateescape")


def plain(written):
    """What is left without sequences, returns and the upper window."""
    out, is_upper, reading = bytearray(), False, "text"
    for byte in written:
        if reading == "text":
            if byte == ESCAPE:
                reading = "escape"
            elif not (is_upper or byte == RETURN[0]):
                out.append(byte)
        elif reading == "escape":
            reading = "numbers" if byte == ord("[") else "text"
        elif byte >= 64:
            is_upper = byte == ord("l") or (byte != ord("h") and is_upper)
            reading = "text"
    return bytes(out)


def characters(text):
    """How many columns a text takes."""
    return len(text.decode(errors="surrogateescape"))


def status_line(columns, line):
    """A status line of versions 1 to 3 for so many columns, the last of them blank: the place, and at the right end the score
    and moves, or the time, without words where they take more than half."""
    at = max(line.rfind(b"Score: "), line.rfind(b"Time: "))
    if at < 0:
        return line
    left, right, columns = line[:at], line[at:], columns - 1
    if 2 * characters(right) > columns:
        right = b"/".join(right.split()[1::2])
    place = fitting(max(columns - characters(right) - 1, 0), left)
    return place + b" " * (columns - characters(place) - characters(right)) + right


class Screen:
    """A terminal of a size, with the upper window as it was drawn last, of which the first line is a status line or not."""

    def __init__(self, columns, rows, has_line=False):
        self.columns, self.rows, self.high, self.window, self.has_line = columns, rows, 0, b"", has_line

    def resize(self, columns, rows):
        """Another size: what is there stays."""
        self.columns, self.rows, self.high = columns, rows, 0

    def reply(self, text, answer):
        """What is written for a reply of a text, and the answer to `/status` after it."""
        text, each = unmarked(text)
        text = broken(shown(text), self.columns)
        last = text.rfind(b"\n") + 1
        lines = marked(text[:last], each[:last])
        written = sequence(1, b"H") + counted(self.high, b"M") + above_last(self.high) + lines
        if answer not in (OVER, NO_MEMORY):
            self.window = b"" if answer == NO_STATUS else answer[:-1]
        window = self.window
        if self.has_line:
            first, end, later = window.partition(b"\n")
            window = status_line(self.columns, first) + end + later
        window = shown(window)
        high = min(self.rows - 4, row_count(window))
        most = max(self.high, high)
        self.high = high
        written += b"\x1bD" * (most + 1) + sequence(1, b"H") + counted(most, b"L") + upper(self.columns, high, window)
        return written + above_last(1) + RETURN + marked(text[last:], each[last:])

    def end(self):
        return above_last(0)
