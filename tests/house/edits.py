"""Whether each must-fail edit can be applied, for `tests/house/documents`. The gate passes over one that cannot, with a
note: so a text that `rt fmt` breaks in two would be tried no more. Those of tests/slow_edits, which are tried by hand,
are read too."""

from pathlib import Path

TOP = Path(__file__).resolve().parents[2]
CRATES, SLOW = TOP / "crates", TOP / "tests/slow_edits"


def faults_of(path, crate):
    """What is wrong with an edit of a crate: each text that it replaces is once in its file, after the changes before,
    and there is such a text."""
    texts, name, old = {}, None, None
    for line in path.read_text().splitlines():
        word, _, rest = line.partition(": ")
        if word == "file":
            name = rest.strip()
            texts.setdefault(name, (crate / name).read_text())
        elif word == "old":
            old = rest
        elif word in ("new", "new:"):
            times = texts[name].count(old)
            if times != 1:
                yield f"{name} has {times} times: {old}"
            texts[name] = texts[name].replace(old, rest)
    if old is None:
        yield "it replaces nothing"


def check_edits():
    """What is wrong with edits, and how many there are."""
    edits = [(path, path.parents[1]) for path in sorted(CRATES.glob("*/must-fail/*.edit"))]
    edits += [(path, CRATES / path.parent.name) for path in sorted(SLOW.glob("*/*.edit"))]
    faults = [f"{path.relative_to(TOP)}: {fault}" for path, crate in edits for fault in faults_of(path, crate)]
    return faults, len(edits)
