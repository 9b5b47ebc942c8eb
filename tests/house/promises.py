"""Checks what docs/PROMISES.md cites, for `tests/house/documents`.

A table of promises has in its second column citations, with `; ` between them:

    `clause`, `clause` of `function` and `function` in `crate`, over `Word` and `Word`, over `Word`

Each function is public and in one of the crates of the section's heading, or in the crate that is named. It ensures a
clause of each name, and each word is in one of these clauses of each function; where no clause is named, in any. A word
after a further `over` is in the definition of one of those before it, in whatever crate. In place of a function can be

- `asked by` a function: the clauses are those that it requires. There is such a citation of each public function that
  requires something, but for those of the crates that hold the parts of a turn
- a definition, whose clauses are its fields or constructors
- `each function of` some crates `but` some functions: of each public function of theirs that can change what it is
  given, the contract has one of the words, but for these functions

The table of definitions has in its second column files of `specs/`, and what is defined in them. That of wrong bodies
has edits and files."""

import re

from contracts import CRATES, TOP, has_word, read_definitions, read_functions

LIST = r"`[^`]+`(?:(?:, | and )`[^`]+`)*"
CITATION = re.compile(
    rf"(?:(?P<ensured>{LIST}) of |(?P<asked>(?:{LIST} )?asked by ))?(?P<names>{LIST})(?: in `(?P<crate>\w+)`)?"
    rf"(?P<words>(?:, over {LIST})*)"
)
EACH = re.compile(rf"each function of (?P<crates>{LIST})(?: but (?P<names>{LIST}))?, over (?P<words>{LIST})")
TITLES = ("Contract", "Definition", "Refused by")
TURNS = (("machine_decoding", "machine_flight"), ("machine_standard_windows", "machine_standard"))


class NotThere(Exception):
    """What is cited is not there."""


def quoted(text):
    """What stands between backticks."""
    return re.findall(r"`([^`]+)`", text or "")


def sections_of(text):
    """The sections of a document: the heading of each, and its lines."""
    for section in text.split("\n## ")[1:]:
        heading, _, rest = section.partition("\n")
        yield heading, rest.splitlines()


def cells_of(lines, title):
    """The second cells of the tables whose second column has this title."""
    begun = False
    for line in lines:
        cells = line.strip("|").split(" | ")
        if line.endswith(f" | {title} |"):
            begun = True
        elif not line.startswith("|"):
            begun = False
        elif begun and not line.startswith("|---"):
            yield cells[-1].strip() if len(cells) == 2 else f"a row of {len(cells)} cells"


def only(found, name):
    """The only thing that was found for a name."""
    if len(found) != 1:
        where = " and ".join(f"{one.name} in {one.crate}" for one in found)
        raise NotThere(f"{name} is {where or 'no public function and no definition here'}")
    return found[0]


class Promises:
    """The public functions and the definitions that there are, those functions that require something and were not
    cited yet with it, and how many citations were checked."""

    def __init__(self):
        self.functions = [found for found in read_functions() if found.is_public]
        self.definitions = list(read_definitions())
        self.crates = re.findall(r"^(\w+):", (TOP / "crates.txt").read_text(), re.M)
        parts = [self.crates[self.crates.index(first) : self.crates.index(last) + 1] for first, last in TURNS]
        turn = {crate for part in parts for crate in part}
        self.asking = {(one.crate, one.name) for one in self.functions if one.required and one.crate not in turn}
        self.count = 0

    def crates_of(self, heading):
        """The crates that a heading names; `A` to `B` are also those between them in crates.txt."""
        found = set(quoted(heading))
        if not found <= set(self.crates):
            raise NotThere(f"the heading {heading} names what is no crate")
        for first, last in re.findall(r"`(\w+)` (?:up )?to `(\w+)`", heading):
            found.update(self.crates[self.crates.index(first) : self.crates.index(last) + 1])
        return found

    def find(self, name, crates):
        """What a name stands for in these crates: a public function, of several those with a contract, or else a
        definition."""
        functions = [one for one in self.functions if one.crate in crates and f"::{one.name}".endswith(f"::{name}")]
        if len(functions) > 1:
            functions = [one for one in functions if one.parts or one.required]
        return only(functions or [one for one in self.definitions if one.crate in crates and one.name == name], name)

    def define(self, word, crates):
        """What defines a word: a definition in these crates, or else the only one in any."""
        defined = [one for one in self.definitions if one.name == word]
        return only([one for one in defined if one.crate in crates] or defined, word)

    def text_of(self, cited, read):
        """The text of the clauses of something that a citation names, of all where it names none."""
        clauses, parts = cited.parts, quoted(read["ensured"])
        if read["asked"]:
            clauses, parts = cited.required, quoted(read["asked"])
            self.asking.discard((cited.crate, cited.name))
        for part in parts:
            if part not in clauses:
                raise NotThere(f"{cited.name} has no clause {part}")
        if not clauses:
            raise NotThere(f"{cited.name} has no such contract")
        self.count += max(1, len(parts))
        return "".join(text for part, text in clauses.items() if part in parts or not parts)

    def check_words(self, text, lists, crates):
        """Checks that the words of the first list are in a text, and those of each other in definitions of words before
        it."""
        for words in lists:
            for word in words:
                if not has_word(text, word):
                    raise NotThere(f"{word} is not there")
            self.count += len(words)
            if words is not lists[-1]:
                text = "".join(self.define(word, crates).text() for word in words)

    def check_named(self, read, crates):
        """Checks a citation of functions or definitions."""
        lists = [quoted(part) for part in read["words"].split(", over ")[1:]]
        for name in quoted(read["names"]):
            cited = self.find(name, {read["crate"]} if read["crate"] else crates)
            self.check_words(self.text_of(cited, read), lists, crates)

    def check_each(self, read):
        """Checks a citation of each function of crates."""
        crates, names, words = (quoted(read[part]) for part in ("crates", "names", "words"))
        changing = [one for one in self.functions if one.crate in crates and has_word(one.text(), "new")]
        without = [one.name for one in changing if not any(has_word(one.text(), word) for word in words)]
        if sorted(without) != sorted(names):
            raise NotThere(f"those without these words are {', '.join(without)}")
        for word in words:
            if not any(has_word(one.text(), word) for one in changing):
                raise NotThere(f"{word} is in none of them")
        self.count += len(changing)

    def check(self, citation, crates):
        """Checks one citation."""
        each, read = EACH.fullmatch(citation), CITATION.fullmatch(citation)
        if each:
            self.check_each(each)
        elif read:
            self.check_named(read, crates)
        else:
            raise NotThere("this cannot be read")

    def check_definition(self, name, path):
        """Checks that a file of `specs/` defines a name."""
        if not any(one.name == name and str(one.path) == path for one in self.definitions):
            raise NotThere(f"{path} does not define {name}")
        self.count += 1


def faults_of_promises(promises, heading, lines):
    """What is wrong in the tables of promises of a section."""
    for cell in cells_of(lines, "Contract"):
        for citation in cell.split("; "):
            try:
                promises.check(citation, promises.crates_of(heading))
            except NotThere as fault:
                yield f"{citation}: {fault}"


def faults_of_definitions(promises, lines):
    """What is wrong in the table of definitions."""
    for cell in cells_of(lines, "Definition"):
        for name, path in re.findall(r"`(\w+)`: `(\S+\.antt)`", cell):
            try:
                promises.check_definition(name, path)
            except NotThere as fault:
                yield str(fault)


def faults_of_titles(lines):
    """Tables of the section that nothing checks."""
    for title, below in zip(lines, lines[1:]):
        if below.startswith("|---") and not title.endswith(tuple(f" | {name} |" for name in TITLES)):
            yield f"a table with other titles: {title}"


def is_there(name):
    """Whether what the table of wrong bodies names is an edit, a file or a crate."""
    crate, _, edit = name.partition("/")
    edits = CRATES / crate / "must-fail" / f"{edit}.edit"
    return edits.is_file() or (CRATES / name).exists() or (TOP / name).is_file()


def faults_of_edits(lines):
    """What is wrong in the table of wrong bodies."""
    for cell in cells_of(lines, "Refused by"):
        for name in quoted(cell):
            if not is_there(name):
                yield f"{name} is no edit and no file"


def check_promises():
    """What is wrong in docs/PROMISES.md, and how many citations it has."""
    promises, faults = Promises(), []
    for heading, lines in sections_of((TOP / "docs" / "PROMISES.md").read_text()):
        faults += faults_of_titles(lines)
        faults += faults_of_promises(promises, heading, lines)
        faults += faults_of_definitions(promises, lines)
        faults += faults_of_edits(lines)
    faults += [f"{name} in {crate} asks for something: no table says so" for crate, name in sorted(promises.asking)]
    return faults, promises.count
