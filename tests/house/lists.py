"""The lists and numbers in documents that follow from crates.txt and other files of the repository:

- in the README of a crate the paragraph that begins with `Stage:`: its part of crates.txt, the crates that it stands
  on and those that stand on it; of each, only those with no other between them
- in docs/ARCHITECTURE.md the crates by their parts
- in docs/CHANGING.md the table of what a change costs: how many crates, and minutes
- in docs/COSTS.md and docs/DECISIONS.md what a whole run takes, by seconds.txt, and in COSTS.md the part of `./build`
- in docs/PROVING.md the number of crates
- in docs/DIFFERENCES.md the tables of what is missing and of words of other languages, by those of `messages_parts`
- in tests/both/README.md how many rows there are, and in each file
- in docs/READING.md the tables of files and lines of the reading list and of what the other theorems rest on, and the
  crates of the kit
- in docs/THEOREM.md and README.md the numbers of lines, of must-fail edits and of crates of the kit, and what a whole
  run takes

`./lists` writes them, and `tests/house/documents` fails where one is stale."""

import re
import textwrap
from pathlib import Path

import row_files
from imports import followed

TOP = Path(__file__).resolve().parents[2]
COLUMNS = 100
# The programs of the repository that are installed.
PROGRAMS = ("inform", "play")
# The other theorems, and the file of each.
THEOREMS = {"PairsStandard": "tools/specs/Standard", "PairsExtended": "tools/specs/Extended"}
NUMBERS = ("no", "one", "two", "three", "four", "five", "six", "seven", "eight", "nine", "ten", "eleven", "twelve")


class Crates:
    """The crates of crates.txt, lowest first: the parts, and for each crate its part and all crates below it."""

    def __init__(self):
        text = (TOP / "crates.txt").read_text()
        self.parts, self.part_of, self.libraries, self.all_below, self.of_kit = {}, {}, {}, {}, {}
        for heading, name, libraries in re.findall(r"^(?:# (.*)|(\w+):(.*))$", text, re.M)[1:]:
            if heading:
                self.parts[heading] = []
            else:
                self.add(name, libraries.split())

    def add(self, name, libraries):
        """Adds a crate to the latest part. Libraries that are no crates of this repository are those of the kit."""
        part = list(self.parts)[-1]
        self.parts[part].append(name)
        self.part_of[name] = part
        self.libraries[name] = [library for library in libraries if library in self.all_below]
        self.of_kit[name] = [library for library in libraries if library not in self.all_below]
        below = [self.all_below[library] for library in self.libraries[name]]
        self.all_below[name] = set(self.libraries[name]).union(*below)

    def below(self, name):
        """The crates on which one stands with no other between them."""
        libraries = self.libraries[name]
        return [one for one in libraries if not any(one in self.all_below[other] for other in libraries)]

    def above(self, name):
        """The crates that stand on one with no other between them."""
        return [one for one in self.libraries if name in self.below(one)]

    def with_above(self, name):
        """A crate, and all that stand on it."""
        return [one for one in self.libraries if one == name or name in self.all_below[one]]

    def of_programs(self):
        """The programs that are installed, and the crates below them."""
        return set(PROGRAMS).union(*(self.all_below[name] for name in PROGRAMS))

    def kit_of_programs(self):
        """The crates of the kit that they use."""
        return sorted({library for name in self.of_programs() for library in self.of_kit[name]})


def wrapped(text, later=""):
    """A paragraph in lines of documents."""
    return textwrap.fill(text, COLUMNS, subsequent_indent=later, break_long_words=False, break_on_hyphens=False)


def readme_of(name):
    """The README of a crate."""
    return TOP / "crates" / name / "README.md"


def linked(names):
    """Links from the README of a crate to those of others."""
    return ", ".join(f"[`{name}`](../{name}/README.md)" for name in names) or "nothing"


def with_stage(text, crates, name):
    """The README of a crate with its stage and neighbours."""
    stage = crates.part_of[name]
    below, above = linked(crates.below(name)), linked(crates.above(name))
    line = f"Stage: {stage[0].lower()}{stage[1:]}. Below: {below}. Above: {above}."
    title, _, rest = text.partition("\n\n")
    if rest.startswith("Stage: "):
        rest = rest.partition("\n\n")[2]
    return "\n\n".join([title, wrapped(line), rest])


def with_crates(text, crates):
    """ARCHITECTURE.md with the crates by their parts."""
    lines = [""]
    for part, names in crates.parts.items():
        links = ", ".join(f"[`{name}`](../crates/{name}/README.md)" for name in names)
        lines.append(wrapped(f"- *{part}*: {links}", "  "))
    return between(text, "<!-- From crates.txt, by ./lists. -->\n", "<!-- End. -->", "\n".join(lines) + "\n\n")


def between(text, first, last, new):
    """A text with other lines between these two marks, of which the first is there once."""
    before, _, rest = text.partition(first)
    return before + first + new + rest[rest.index(last) :]


def seconds_of():
    """What seconds.txt has of each crate: the seconds of its proof and of its edits."""
    rows = re.findall(r"^(\w+): (\d+) (\d+)$", (TOP / "seconds.txt").read_text(), re.M)
    return {name: (int(proof), int(edits)) for name, proof, edits in rows}


def edits_of(name):
    """How many must-fail edits a crate has."""
    return len(list((TOP / "crates" / name / "must-fail").glob("*.edit")))


def whole_run():
    """What seconds.txt has of a whole run: processor minutes, and minutes by the clock."""
    return re.search(r"^whole-run: (\d+) (\d+)$", (TOP / "seconds.txt").read_text(), re.M).groups()


def with_whole_run(text, crates):
    """COSTS.md with what a whole run takes, and how much of all proofs and edits ./build proves."""
    minutes, by_clock = whole_run()
    return with_figures(text, (
        ("A whole run takes ", minutes, r" processor\sminutes"),
        (r"processor\sminutes, ", by_clock, " by the clock"),
        ("proves ", part_of_build(crates), r" %\sof it"),
    ))


def with_budget(text, _):
    """DECISIONS.md with what a whole run takes."""
    return with_figures(text, ((r"\*\*", whole_run()[0], r" processor minutes\*\*"),))


def part_of_build(crates):
    """How many of a hundred seconds of all proofs and edits ./build takes."""
    measured = seconds_of()
    build = sum(measured[name][0] for name in crates.of_programs() & set(measured))
    return round(100 * build / sum(map(sum, measured.values())))


def own_lines(text, has_imports=True):
    """How many lines of a file are not blank, with the imports of definitions or without them."""
    lines = [line for line in text.splitlines() if line.strip()]
    return sum(1 for line in lines if has_imports or not re.match(r"\s*(pub )?use ", line))


def lines_of(text):
    """How many lines a file has."""
    return text.count("\n")


def lines_in(folder, ending):
    """How many lines that are not blank are in such a folder of all crates, to the nearest thousand."""
    files = (TOP / "crates").glob(f"*/{folder}/**/*.{ending}")
    return round(sum(own_lines(path.read_text()) for path in files), -3)


def reading_list(text):
    """The reading list of READING.md: the heading of each part, and the texts of its files."""
    section = text.partition("\n## The reading list\n")[2].partition("\n## ")[0]
    for part in section.split("\n### ")[1:]:
        heading, _, rest = part.partition("\n")
        names = re.findall(r"\(\.\./crates/(\w+/specs/\w+\.antt)\)", rest)
        yield heading, [(TOP / "crates" / name).read_text() for name in names]


def with_reading(text, crates):
    """READING.md with the table of its list, and how much of it is read."""
    parts = [(heading, len(texts), sum(map(lines_of, texts))) for heading, texts in reading_list(text)]
    parts.append(("All", sum(part[1] for part in parts), sum(part[2] for part in parts)))
    rows = [f"| {heading} | {files} | {lines:,} |" for heading, files, lines in parts]
    text = between(text, "| Part of the list | Files | Lines |\n|---|---|---|\n", "\n\n", "\n".join(rows))
    head = "| Theorem | Files | Lines | Of these not on the list |\n|---|---|---|---|\n"
    text = between(text, head, "\n\n", "\n".join(rows_of_theorems(text)))
    text = between(text, "<!-- From crates.txt, by ./lists. -->\n", "<!-- End. -->", kit_crates(crates))
    own = sum(own_lines(one, has_imports=False) for _, texts in reading_list(text) for one in texts)
    return with_figures(text, (
        (r"\n", f"{own:,}", " of these lines are neither blank nor imports"),
        ("the contracts of the ", NUMBERS[len(crates.kit_of_programs())], " kit crates that the programs use"),
    ))


def rows_of_theorems(text):
    """The row of each other theorem in READING.md, whose text this is: how much it rests on, and how much of this is not
    on the list."""
    known = {one for _, texts in reading_list(text) for one in texts}
    for word, name in THEOREMS.items():
        texts = followed(name).values()
        further = [one for one in texts if one not in known]
        counts = f"{len(texts)} | {sum(map(lines_of, texts)):,} | {len(further)} files, {sum(map(lines_of, further)):,} lines"
        yield f"| [`{word}`](../crates/{name}.antt) | {counts} |"


def kit_crates(crates):
    """The crates of the kit that the programs use, in READING.md."""
    return wrapped(", ".join(f"`{name}`" for name in crates.kit_of_programs())) + "\n"


def with_figures(text, figures):
    """A text with each of these figures between the words before it and those after it, which are there once."""
    for before, figure, after in figures:
        text, count = re.subn(rf"({before})[\w,]+({after})", rf"\g<1>{figure}\2", text)
        if count != 1:
            raise ValueError(f"these words are there {count} times: {before} .. {after}")
    return text


def figures_of_theorem(crates):
    """The figures of THEOREM.md."""
    read = [one for _, texts in reading_list((TOP / "docs/READING.md").read_text()) for one in texts]
    yield r"\| Code with its contracts \| ", f"{lines_in('src', 'rt'):,}", r" \|"
    yield "in the reading list: ", f"{round(sum(map(own_lines, read)), -3):,}", r"\) \| "
    yield r"in the reading list: [\d,]+\) \| ", f"{lines_in('specs', 'antt'):,}", r" \|"
    yield r"\| Proofs \| ", f"{lines_in('proofs', 'antt'):,}", r" \|"
    yield r"`./prove`, in ", whole_run()[0], " minutes of processor time"
    yield "together with ", sum(map(edits_of, crates.libraries)), " edits of the\ncode"


def figures_of_readme(crates):
    """The figures of README.md."""
    yield "a virtual machine in ", f"{lines_in('src', 'rt'):,}", " lines of Rust with contracts"
    yield "runs all tests on what was proved: ", whole_run()[1], " minutes on four cores"
    yield "bin/inform and bin/play: ", part_of_build(crates), " % of that"
    yield "the contracts of ", NUMBERS[len(crates.kit_of_programs())], " of its library crates"


def with_costs(text, crates):
    """CHANGING.md with the numbers of the table of what a change costs."""
    measured = seconds_of()

    def row(found):
        above = crates.with_above(found["name"])
        minutes = max(1, round(sum(sum(measured.get(name, ())) for name in above) / 60))
        return f"| {found['names']} | {len(above)} | {minutes} |"

    return re.sub(r"^\| (?P<names>`(?P<name>\w+)`.*?) \| \d+ \| \d+ \|", row, text, flags=re.M)


def with_number(text, crates):
    """PROVING.md with the number of crates."""
    return re.sub(r"\d+( crates in which every function is proved)", rf"{len(crates.libraries)}\1", text)


def with_features(text, _):
    """DIFFERENCES.md with the tables of what is missing and of words of other languages."""
    rows = ["| Missing here | Write instead | Section |", "|---|---|---|"]
    for missing, instead, place in features("table"):
        rows.append(f"| {missing} | {instead} | {place} |".replace("  |", " |"))
    text = between(text, "<!-- From messages_parts, by ./lists. -->\n", "<!-- End. -->", "\n".join(["", *rows, "", ""]))
    rows = ["| Elsewhere | Write here |", "|---|---|"]
    for missing, instead, _ in features("habits"):
        rows.append(f"| {missing} | {instead} |")
    words = "<!-- Words, from messages_parts, by ./lists. -->\n"
    return between(text, words, "<!-- End. -->", "\n".join(["", *rows, "", ""]))


def features(name):
    """What is missing, what to write instead and the section, of each feature of a file of `messages_parts`."""
    table = (TOP / f"crates/messages_parts/src/{name}.rt").read_text()
    text = r'"((?:[^"\\]|\\.)*)"'
    for feature in re.findall(rf"feature!\(\s*{text}\s*=>\s*{text}(?:\s*in {text})?", table):
        missing, instead, section = (in_row(field) for field in feature)
        instead = "leave it out" if instead == "nothing" else instead
        instead = re.sub(r"(examples/(\w+)\.inf)", r"[\2](../\1)", instead)
        yield missing, instead, f"[{section}](#{section.lower()})" if section else ""


def in_row(text):
    """A text of a feature, with what a table's row escapes."""
    return text.replace('\\"', '"').replace("\\\\", "\\").replace("|", r"\|")


def with_rows(text, _):
    """The README of the rows with how many there are, in all and in each file."""
    counts = [len(row_files.all_rows(name)) for name in row_files.SOURCES + row_files.STORIES]
    ahead = iter([sum(counts), *counts])
    return re.sub(r"\d[\d,]*(?=\s(?:rows|sources|stories)\b)", lambda _: f"{next(ahead):,}", text, count=1 + len(counts))


def documents():
    """Each document with a list, as it is and as it should be."""
    crates = Crates()
    for name in crates.libraries:
        now = readme_of(name).read_text()
        wanted = with_stage(now, crates, name)
        yield readme_of(name), now, wanted
    for name, change in (
        ("docs/ARCHITECTURE.md", with_crates),
        ("docs/CHANGING.md", with_costs),
        ("docs/COSTS.md", with_whole_run),
        ("docs/DECISIONS.md", with_budget),
        ("docs/PROVING.md", with_number),
        ("docs/DIFFERENCES.md", with_features),
        ("docs/READING.md", with_reading),
        ("tests/both/README.md", with_rows),
        ("docs/THEOREM.md", lambda text, crates: with_figures(text, figures_of_theorem(crates))),
        ("README.md", lambda text, crates: with_figures(text, figures_of_readme(crates))),
    ):
        now = (TOP / name).read_text()
        yield TOP / name, now, change(now, crates)
