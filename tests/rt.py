"""The toolchain's rt, which is told once for each crate what it is made from.

For a sum of the files that a crate is made from, and for a list of the crates below it, rt asks the crates that it names,
and these ask theirs: it comes to a crate again by each path in the graph of crates.txt. There are millions, so this took
minutes with the crates of version 1.6.0, and would take hours with those of today. Here the answers of rt's own functions
are kept while it runs. All else is rt's: what is proved, tried and run, and in what order.

A crate whose files change during `rt ci` makes it fail, as without this."""

import importlib.machinery
import os
import runpy
import shutil
import sys

import processor

SUMS, LISTS = "stamp", "below"

# The variable that names a file, into which goes what each crate took of the processor.
ACCOUNT = "PROCESSOR_SECONDS"


class Answers:
    """What one function of rt answered for each crate, by the folder of the crate."""

    def __init__(self, crate_type, name):
        self.ask = getattr(crate_type, name)
        self.known = {}
        self.crates = {}
        setattr(crate_type, name, lambda crate: self.of(crate))

    def of(self, crate):
        if crate.folder not in self.known:
            self.crates[crate.folder] = crate
            self.known[crate.folder] = self.ask(crate)
        answer = self.known[crate.folder]
        return list(answer) if isinstance(answer, list) else answer

    def are_right(self):
        """Whether all answers are still the same."""
        before, self.known = self.known, {}
        return all(self.of(self.crates[folder]) == answer for folder, answer in before.items())


class Loader(importlib.machinery.SourceFileLoader):
    """Loads modules as they are, but that the answers of rt's own are kept."""

    answers = {}

    def exec_module(self, module):
        super().exec_module(module)
        if module.__name__ == "rtlib":
            self.answers.update({name: Answers(module.Crate, name) for name in (SUMS, LISTS)})


def is_python(command):
    """Whether a program is written in Python, as rt is."""
    with open(command, "rb") as file:
        return b"python" in file.readline()


def main():
    command = os.path.realpath(shutil.which("rt") or sys.exit("rt is missing"))
    if not is_python(command):
        os.execv(command, [command, *sys.argv[1:]])
    importlib.machinery.SourceFileLoader = Loader
    account = processor.watch()
    sys.dont_write_bytecode = True
    sys.argv[0] = command
    try:
        runpy.run_path(command, run_name="__main__")
        status = 0
    except SystemExit as end:
        status = end.code
    # (with names, it is a copy of the crates that rt has proved, which is gone by now)
    if sys.argv[1:] == ["ci"] and not Loader.answers[SUMS].are_right():
        print("rt: a file of a crate has changed during the run\n0 passed, 1 failed")
        status = 1
    if ACCOUNT in os.environ:
        account.write(os.environ[ACCOUNT])
    sys.exit(status)


main()
