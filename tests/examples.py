"""The sources in examples/, for the scripts that compile them."""

import re
from pathlib import Path

EXAMPLES = Path(__file__).resolve().parent.parent / "examples"


def plain_examples(pattern="*.inf"):
    """Those that `inform` compiles without options: they include nothing."""
    found = sorted(EXAMPLES.glob(pattern))
    return [path for path in found if not re.search(r"^Include ", path.read_text(), re.M)]
