"""The programs of extended_forms.txt, for the scripts that try them."""

from pathlib import Path

FORMS = Path(__file__).resolve().parent / "extended_forms.txt"


def forms():
    """Each program of the larger language: its name, its source, and what it prints."""
    for block in FORMS.read_text().split("### ")[1:]:
        name, _, rest = block.partition("\n")
        source, _, printed = rest.partition("\nprints:\n")
        yield name, source + "\n", plain(printed)


def plain(text):
    """A transcript without the spaces and line ends at its end."""
    return text.rstrip()
