"""The contracts of the functions in crates/, and the definitions that they cite, for the scripts beside it. They are
read as the formatter of the kit lays them out: four columns for each step inwards in sources, two in definitions."""

import re
from dataclasses import dataclass, field
from pathlib import Path

TOP = Path(__file__).resolve().parents[2]
CRATES = TOP / "crates"

HEADING = re.compile(r"^( *)(pub(?:\(\w+\))? )?(?:const )?(?:unsafe )?fn (\w+)")
OWNER = re.compile(r"^(?:unsafe )?impl(?:<.*?>)? (?:.* for )?(?:&mut |&)?(\w+)|^(?:pub )?trait (\w+)")
CLAUSE = re.compile(r"^ *(requires|ensures)\*?(?: ([\w-]+))? \{")
DEFINED = re.compile(r"^(?:abbrev |unfoldable )?(?:pub )?(?:(record|data) )?([^\s:{}()]+)")
PART = re.compile(r"^  (?:pub )?(\w+) :")
EXPORT = re.compile(r"^pub use (?:[\w:]+::)?(\w+|\{[^}]*\});|^pub mod (\w+);", re.M)


@dataclass
class Cited:
    """What a citation can name: a function with the clauses that it ensures and those that it requires, or a definition
    with its fields or constructors. Each part has its text; what has no name is in a part without one."""

    path: Path
    name: str
    is_public: bool
    parts: dict = field(default_factory=dict)
    required: dict = field(default_factory=dict)

    @property
    def crate(self):
        """The crate that it is in."""
        return self.path.parts[0]

    def text(self):
        """The text of all parts."""
        return "".join(self.parts.values())


def has_word(text, word):
    """Whether a text has a word."""
    return re.search(rf"(?<!\w){re.escape(word)}(?!\w)", text) is not None


def heading_of(lines):
    """The lines of a function before its body. `lines` begin with the function, whose contract, where it has one, is
    followed by a line with the brace alone."""
    indent = re.match(" *", lines[0]).group()
    found = []
    for line in lines:
        has_clauses = any(CLAUSE.match(earlier) for earlier in found)
        if line in (indent + "{", indent + "{}"):
            break
        found.append(line)
        if has_clauses and line.endswith("};") or not has_clauses and line.endswith((" {", " {}", ";")):
            break
    return found


def add_clauses(found, lines):
    """Adds to a function the clauses of the heading with which these lines begin."""
    parts, name = {}, None
    for line in heading_of(lines):
        begun = CLAUSE.match(line)
        if begun:
            word, name = begun.groups()
            parts = found.parts if word == "ensures" else found.required
        if not line.lstrip().startswith("//"):
            parts[name] = parts.get(name, "") + line + "\n"


def exports_of(crate):
    """The names that the root of a crate hands out."""
    text = re.sub(r"//.*", "", (CRATES / crate / "src" / "lib.rt").read_text())
    return {name for found in EXPORT.findall(text) for name in re.findall(r"\w+", " ".join(found))}


def functions_in(path, exports):
    """The functions of a source, methods with the name of their type or trait. Those are public that users of the crate
    can name, which hands out these names."""
    owner, is_trait, lines = None, False, (CRATES / path).read_text().splitlines()
    for place, line in enumerate(lines):
        opened, begun = OWNER.match(line), HEADING.match(line)
        if opened:
            owner, is_trait = opened.group(1) or opened.group(2), opened.group(2) is not None
        elif line == "}":
            owner, is_trait = None, False
        if begun:
            _, visible, name = begun.groups()
            is_handed_out = not exports.isdisjoint({owner or name, path.stem, path.parent.name}) or path.name == "lib.rt"
            is_public = (is_trait or visible == "pub ") and is_handed_out
            found = Cited(path, f"{owner}::{name}" if owner else name, is_public)
            add_clauses(found, lines[place:])
            yield found


def blocks_of(text):
    """The blocks of a file of definitions, each a line at the margin and the lines below that go on with it. Those of a
    `mutual` or a `module` are blocks of their own."""
    text = re.sub(r"^\s*--.*\n", "", text, flags=re.M)
    for block in re.split(r"\n(?=\S)", text):
        first, _, rest = block.partition("\n")
        if re.match(r"(abbrev )?mutual\b|module\b", first):
            yield from blocks_of(re.sub(r"^  ", "", rest, flags=re.M))
        else:
            yield block + "\n"


def definitions_in(path):
    """The definitions of a file of `specs/`, by their names."""
    found = {}
    for block in blocks_of((CRATES / path).read_text()):
        kind, name = DEFINED.match(block).groups() if DEFINED.match(block) else (None, None)
        if name in (None, "use", "mod"):
            continue
        cited = found.setdefault(name, Cited(path, name, True))
        part = None
        for line in block.splitlines(keepends=True):
            begun = PART.match(line) if kind else None
            part = begun.group(1) if begun else part
            cited.parts[part] = cited.parts.get(part, "") + line
    return found


def read_functions():
    """All functions of all crates."""
    for crate in sorted(path.parent.parent.name for path in CRATES.glob("*/src/lib.rt")):
        exports = exports_of(crate)
        for path in sorted((CRATES / crate / "src").glob("**/*.rt")):
            yield from functions_in(path.relative_to(CRATES), exports)


def read_definitions():
    """All definitions of all crates."""
    for path in sorted(CRATES.glob("*/specs/**/*.antt")):
        yield from definitions_in(path.relative_to(CRATES)).values()
