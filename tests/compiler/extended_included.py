"""The part of tests/compiler/extended for sources of several files, in the present folder."""

from pathlib import Path

# Each row: what a source prints, and its files, the main one first.
PROGRAMS = [
    ("1 2 3", {
        "game.inf": 'Constant A 1;\nInclude "two";\n[ Main; print A, " ", B, " ", Three(); ];\n',
        "two.h": 'Constant B 2;\nInclude "there/three.h";\n',
        "there/three.h": "[ Three; return 3; ];\n",
    }),
    # Without a line end, behind a comment, with `#`, in other letters, and over several lines.
    ("7", {
        "game.inf": '#INCLUDE\n  "a.h"  ! it asks for b.h\n  ; [ Main; print (n - 1); ];',
        "a.h": 'Global n = 8;include "b.h";! no line end',
        "b.h": "! nothing but a comment",
    }),
    # Lines that end as on other systems.
    ("12", {
        "game.inf": 'Include "a.h";\r\n[ Main;\r\n  print A, 2;\r\n];\r\n',
        "a.h": "Constant A 1;\r\n",
    }),
    # A file may be asked for twice.
    ("ab", {
        "game.inf": 'Object first "a";\nInclude "a.h";\nInclude "a.h";\n[ Main; print (object) first, "b"; ];\n',
        "a.h": "! asked for twice\n",
    }),
    # A directive may end in a file.
    ("5", {
        "game.inf": 'Include "a.h";\n= 5;\n[ Main; print A; ];\n',
        "a.h": "Constant A",
    }),
    # Beside the main file, and not in a folder.
    ("1", {
        "game.inf": 'Include ">beside";\n[ Main; print A; ];\n',
        "beside.inf": "Constant A 1;\n",
        "more/beside.inf": "Constant A 2;\n",
    }),
    # In folders, in their order; the folder of the main file comes first.
    ("1 2 3", {
        "game.inf": 'Include "a";\nInclude "b";\nInclude "c";\n[ Main; print A, " ", B, " ", C; ];\n',
        "a.h": "Constant A 1;\n",
        "more/a.h": "Constant A 4;\n",
        "more/b.h": "Constant B 2;\n",
        "there/b.h": "Constant B 5;\n",
        "there/c.h": "Constant C 3;\n",
    }),
    # The word in a routine, as a name and in a text asks for nothing.
    ("Include 4", {
        "game.inf": '[ Include x; return x; ];\n[ Main; print "Include ", Include(4); ];\n',
    }),
]

# The mark before the token at which a fault is, in the file that is at fault.
MARK = "§"

# Each row: the fault, and the files, the main one first.
FAULTS = [
    ("E20 unknown name", {
        "game.inf": 'Include "a.h";\n[ Main; ];\n',
        "a.h": "! one\n[ F;\n  print §lost;\n];\n",
    }),
    ("E20 unknown name", {
        "game.inf": 'Include "a.h";\n\n[ Main;\n  print §lost;\n];\n',
        "a.h": "[ F;\n  print 1;\n];",
    }),
    ("E10 not in the grammar", {
        "game.inf": 'Include "a.h";\n[ Main; ];\n',
        "a.h": 'Include "b.h";\n\n  Global h §4;\n',
        "b.h": "[ G;\n];\n",
    }),
    ("E02 bad text or word", {
        "game.inf": 'Include "a.h";\n[ Main; print "more"; ];\n',
        "a.h": '[ F;\n  print §"one\n    two;\n];\n',
    }),
    ("E01 stray byte", {
        "game.inf": 'Include "a.h";\n[ Main; ];\n',
        "a.h": '[ F;\n  print "one\n    two"; §?\n];\n',
    }),
    ("E22 name defined twice", {
        "game.inf": 'Include "a.h";\nInclude "b.h";\n[ Main; ];\n',
        "a.h": "\nConstant A 1;\n",
        "b.h": "\n\nConstant §A 2;\n",
    }),
    ("E24 too many", {
        "game.inf": 'Property p;\nObject bag "bag";\nInclude "a.h";\n[ Main; ];\n',
        "a.h": "[ F;\n  bag.p§(1, 2, 3, 4, 5, 6);\n];\n",
    }),
    ("E10 not in the grammar", {
        "game.inf": '[ Main; ];\nInclude "a.h";\n§Include a;\n',
        "a.h": "[ F; ];\n",
    }),
    ("E10 not in the grammar", {
        "game.inf": 'Include "a.h";\n',
        "a.h": '[ Main;\n  Include §"b.h";\n];\n',
    }),
    ("E21 no proper Main", {
        "game.inf": 'Include "a.h";\n§',
        "a.h": "[ F; ];\n",
    }),
]


def write(files):
    """Writes files anew, and removes those of other rows."""
    for folder in (".", "there", "more"):
        Path(folder).mkdir(exist_ok=True)
        for file in Path(folder).iterdir():
            if file.suffix in (".h", ".inf") and file.is_file():
                file.unlink()
    for name, text in files.items():
        Path(name).write_bytes(text.encode("latin-1"))


def planted(files):
    """The files without the mark, the file that had it, and its line and column there."""
    for name, text in files.items():
        before, mark, after = text.partition(MARK)
        if mark:
            line = before.count("\n") + 1
            return {**files, name: before + after}, name, line, len(before) - (before.rfind("\n") + 1) + 1
    raise ValueError(files)


def chain(count):
    """A main file that asks for a file, which asks for the next, so many."""
    files = {"game.inf": 'Include "f1.h";\n[ Main; print F; ];\n'}
    for number in range(1, count):
        files[f"f{number}.h"] = f'Include "f{number + 1}.h";\n'
    return {**files, f"f{count}.h": "Constant F 1;\n"}


def row(count):
    """A main file that asks for a file so many times."""
    return {"game.inf": 'Include "f.h";\n' * count + "[ Main; print 1; ];\n", "f.h": "! nothing\n"}


# Each row: what is said of a file that is not taken, and the files.
REFUSED = [
    ("lost.h: line 3 of game.inf asks for it", {"game.inf": '\n\nInclude "lost";\n[ Main; ];\n'}),
    ("lost.inf: line 1 of a.h asks for it", {"game.inf": 'Include "a.h";\n[ Main; ];\n', "a.h": 'Include ">lost";\n'}),
    ("there.d: line 1 of game.inf asks for it", {"game.inf": 'Include "there.d";\n[ Main; ];\n'}),
    ("game.inf: line 2 of game.inf asks for it, which is a part of it",
     {"game.inf": '[ Main; ];\nInclude "game.inf";\n'}),
    ("a.h: line 2 of b.h asks for it, which is a part of it",
     {"game.inf": 'Include "a.h";\n[ Main; ];\n', "a.h": 'Include "b.h";\n', "b.h": '\nInclude "a.h";\n'}),
    ("f17.h: line 1 of f16.h asks for it, and files are at most 16 deep", chain(17)),
    ("f.h: line 101 of game.inf asks for it, and a source asks for at most 100 files", row(101)),
]


def try_programs(run, played, fail):
    """Sources of several files print what is wanted; what is derived of them is one file with the same story."""
    for printed, files in PROGRAMS:
        write(files)
        words = ["--extended", "--include", "more", "--include=there", "game.inf"]
        run(*words, "story")
        if played("story").strip() != printed:
            fail(f"{files}: prints {played('story')!r}")
        _, derived, _ = run(*words, "--derived")
        Path("derived.inf").write_bytes(derived)
        run("--large", "derived.inf", "again")
        if Path("story").read_bytes() != Path("again").read_bytes():
            fail(f"{files}: what is derived of them has another story")
    for files in (chain(16), row(100)):
        write(files)
        run("--extended", "game.inf", "story")
        if played("story").strip() != "1":
            fail(f"{len(files)} files: prints {played('story')!r}")


def try_faults(run, fail):
    """Faults are told at their lines of their files; the main one is not named before the line."""
    for fault, marked in FAULTS:
        files, name, line, column = planted(marked)
        write(files)
        wanted = f"line {line}: {fault}" if name == "game.inf" else f"{name}: line {line}: {fault}"
        for words in (["--plain", "story"], ["--sizes"]):
            _, _, said = run("--extended", "game.inf", *words, status=(1,))
            if said.split("\n")[0] != wanted:
                fail(f"{marked!r} {words}: {said}, and not {wanted}")
        _, _, said = run("--extended", "--show", "game.inf", status=(1,))
        lines = said.split("\n")
        quoted = files[name].split("\n")[line - 1].strip()
        if lines[0] != wanted or not lines[1].startswith(f"{name}:{line}:{column}: "):
            fail(f"{marked!r}: {said}, and not at {name}:{line}:{column}")
        if quoted and lines[2].strip() != quoted:
            fail(f"{marked!r}: {said}, which does not quote the line")


def try_other_lines(run, played, fail):
    """A sentence, a warning, sizes and a map name the file of another line."""
    files, _, _, _ = planted(FAULTS[5][1])
    write(files)
    _, _, said = run("--extended", "--show", "game.inf", status=(1,))
    if "line 2 of a.h" not in said:
        fail(f"{said}, which names no line of a.h")
    write({"game.inf": 'Include "a.h";\n[ Main; F(); ];\n', "a.h": "\n[ F i;\n  if (i = 4) print 4 / (i - 4);\n];\n"})
    _, _, said = run("--extended", "--warn", "game.inf")
    if not said.startswith("a.h:3: warning: "):
        fail(f"--warn says {said}")
    _, shown, _ = run("--extended", "--sizes", "game.inf")
    if not shown.decode().endswith("the line of the temporaries is of a.h\n"):
        fail(f"--sizes says {shown}")
    run("--extended", "--map", "map", "game.inf", "story")
    if " a.h:f 3\n" not in Path("map").read_text().lower():
        fail(f"the map is {Path('map').read_text()}")


def try_refused(run, fail):
    """A file that is not taken is named with the line that asks."""
    for said, files in REFUSED:
        write(files)
        Path("there.d").mkdir(exist_ok=True)
        _, _, found = run("--extended", "--plain", "game.inf", "story", status=(2,))
        if found != f"inform: cannot read {said}\n":
            fail(f"{found!r}, and not {said}")
    write({"game.inf": 'Include "a.h";\n[ Main; ];\n', "a.h": "! nothing\n"})
    run("--extended", "game.inf", "a.h", status=(2,))
    if Path("a.h").read_text() != "! nothing\n":
        fail("a file of the source was written")
    run("game.inf", "--plain", "story", status=(1,))


def try_included(run, played, fail):
    """Tries sources of several files."""
    try_programs(run, played, fail)
    try_faults(run, fail)
    try_other_lines(run, played, fail)
    try_refused(run, fail)
    print(f"{len(PROGRAMS) + 2} sources of several files print what they should; {len(FAULTS)} faults of theirs and"
          f" {len(REFUSED)} files that are not taken are told at their places")
