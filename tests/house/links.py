"""Follows links and paths in documents, for `tests/house/documents`: in README.md, in docs/ and in the READMEs of
crates.

A link leads to a file that is there, and to a heading of it. A path in backticks, as `src/lib.rt` or
`zcore/specs/Turn`, is one from the top, from crates/ or from the folder of a crate; its ending may be left out, and
`CRATE/NAME` may also be an edit. Paths with `*`, `..` or a word in capitals are for several, and not looked for."""

import re
from pathlib import Path

TOP = Path(__file__).resolve().parents[2]
CRATES = TOP / "crates"
BEGINNINGS = ("specs", "src", "proofs", "tests", "docs", "examples", "man", "completions", "crates")
SEVERAL = re.compile(r"\*|\.\.|\b[A-Z]{2,}\b|^specs/declared/")


def documents():
    """The documents, each with its text without blocks."""
    for path in [TOP / "README.md", *sorted((TOP / "docs").glob("*.md")), *sorted(CRATES.glob("*/README.md"))]:
        yield path, re.sub(r"^```.*?^```", "", path.read_text(), flags=re.M | re.S)


def anchors_of(path):
    """The names by which links lead to the headings of a document."""
    headings = re.findall(r"^#+ (.*)$", path.read_text(), re.M)
    return {re.sub(r"[^\w -]", "", heading.lower()).replace(" ", "-") for heading in headings}


def leads_somewhere(path, link):
    """Whether a link of a document leads to a file that is there, and to a heading of it."""
    name, _, anchor = link.partition("#")
    found = path.parent / name if name else path
    return found.exists() and (not anchor or anchor in anchors_of(found))


def links_in(text):
    """The links of a document to files of this repository."""
    return [link for link in re.findall(r"\]\(([^)\s]+)\)", text) if "://" not in link]


def paths_in(text):
    """The paths that a document names."""
    for path in re.findall(r"`(\w+/[^`\s]*)`", text):
        beginning = path.partition("/")[0]
        if (beginning in BEGINNINGS or (CRATES / beginning).is_dir()) and not SEVERAL.search(path):
            yield path


def is_there(path):
    """Whether a path leads to a file or a folder."""
    crate, _, edit = path.partition("/")
    if (CRATES / crate / "must-fail" / f"{edit}.edit").exists():
        return True
    places = [TOP, CRATES]
    if crate in ("specs", "src", "proofs"):
        places += CRATES.iterdir()
    return any((place / f"{path}{ending}").exists() for place in places for ending in ("", ".antt", ".rt"))


def check_links():
    """What leads nowhere, and how many links and paths there are."""
    faults, links, paths = [], 0, 0
    for document, text in documents():
        name = document.relative_to(TOP)
        links += len(links_in(text))
        paths += len(list(paths_in(text)))
        faults += [f"{name} has a link to {link}" for link in links_in(text) if not leads_somewhere(document, link)]
        faults += [f"{name} names {path}" for path in paths_in(text) if not is_there(path)]
    return faults, links, paths
