"""Adds up what a whole run took of the processor, from the files that tests/rt.py and tests/scripts.py write:

    tests/account.py CRATES SCRIPTS
    tests/account.py --write MINUTES CRATES SCRIPTS

The first prints the minutes of each kind of step, and all together. By the second, the line of each crate and of each
script in seconds.txt becomes what it took; one whose proof an earlier run had kept keeps its line, and then so does the
whole run, which took so many minutes by the clock."""

import glob
import os
import re
import sys

KINDS = {
    "proof": "checks of crates",
    "tests": "checks of their tests",
    "build": "compilations of programs",
    "edit": "must-fail edits",
    "run": "runs of programs and tests",
    "other": "all else of rt",
}
HEAD = """# What each crate takes, in processor seconds: of its proof, which is with its compilation if it is a program, and of all
# its must-fail edits with the check that they begin with; then what each script takes. The first line has what a whole
# run took that proved everything: processor minutes, and minutes by the clock. ./prove --seconds writes this file.
"""
WHOLE = "whole-run"


def read_crates(file):
    """The seconds of each crate by kind."""
    with open(file, encoding="utf-8") as it:
        rows = [line.rsplit(" ", 2) for line in it]
    return {(crate, kind): float(seconds) for crate, kind, seconds in rows}


def read_scripts(file):
    """The seconds of each script."""
    with open(file, encoding="utf-8") as it:
        rows = [line.rsplit(" ", 1) for line in it.readlines()[1:]]
    return {script: float(seconds) for script, seconds in rows}


def tell(crates, scripts):
    """Prints the minutes of each kind."""
    sums = {told: sum(taken for (_, kind), taken in crates.items() if kind == it) for it, told in KINDS.items()}
    sums["scripts"] = sum(scripts.values())
    for told, taken in sums.items():
        print(f"{told}: {taken / 60:.1f} processor minutes")
    print(f"in all: {sum(sums.values()) / 60:.0f} processor minutes")


def whole_run(crates, scripts, names, minutes):
    """What a run took that proved all crates of these names; `None` of one that did not."""
    if any((name, "proof") not in crates for name in names):
        return None
    return f"{(sum(crates.values()) + sum(scripts.values())) / 60:.0f} {minutes}"


def write(crates, scripts, minutes):
    """Writes the lines of the whole run, of crates and of scripts, in the order of crates.txt and of the names."""
    with open("seconds.txt", encoding="utf-8") as it:
        old = dict(re.findall(r"^([^#:\s]+): (.*)$", it.read(), re.M))
    with open("crates.txt", encoding="utf-8") as it:
        names = re.findall(r"^([a-z0-9_]+):", it.read(), re.M)
    lines = [f"{WHOLE}: {whole_run(crates, scripts, names, minutes) or old[WHOLE]}\n"]
    for name in names:
        proof, edits = (old.get(name, "0 0").split() + ["0"])[:2]
        if (name, "proof") in crates:
            proof = round(sum(crates.get((name, kind), 0) for kind in ("proof", "tests", "build")))
        if (name, "edit") in crates:
            edits = round(crates[name, "edit"])
        elif not glob.glob(f"crates/{name}/must-fail/*.edit"):
            edits = 0
        lines.append(f"{name}: {proof} {edits}\n")
    known = {name: text for name, text in old.items() if name.startswith("tests/") and os.path.isfile(name)}
    known.update((script, f"{taken:.0f}") for script, taken in scripts.items())
    lines += [f"{script}: {known[script]}\n" for script in sorted(known)]
    with open("seconds.txt", "w", encoding="utf-8") as it:
        it.writelines([HEAD, *lines])


def main():
    words = sys.argv[1:]
    crates, scripts = read_crates(words[-2]), read_scripts(words[-1])
    if words[0] == "--write":
        write(crates, scripts, words[1])
    else:
        tell(crates, scripts)


main()
