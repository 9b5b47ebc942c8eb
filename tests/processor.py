"""What each step of rt's work takes of the processor: of the check of a crate, of an edit, of a program's build and run.

rt starts a process for each step. When a step ends, its user and system seconds are told in one line, with its name and
kind, and are added up by crate for the file of seconds."""

import os
import subprocess
import threading

# What a step is, by the word that rattle is given, by its kind of input or by the program that is started.
PROOF, TESTS, EDIT, BUILD, RUN, OTHER = "proof", "tests", "edit", "build", "run", "other"


def crate_in(words):
    """The crate that a command line of rattle names, if it does."""
    return words[words.index("--crate-name") + 1] if "--crate-name" in words else None


def kind_of(words, folder):
    """What a command line of rattle, which is run in a folder, does with its crate."""
    if os.path.basename(folder or "").startswith("rt-edit-"):
        return EDIT
    if "--crate-checked" in words:
        return BUILD
    return TESTS if "--test" in words else PROOF


class Account:
    """The processor seconds of the steps that have ended, by crate and kind."""

    def __init__(self):
        self.seconds = {}
        self.lock = threading.Lock()

    def note(self, words, folder, usage):
        crate = crate_in(words)
        if crate is None:
            step = (self.program_in(words), RUN if words[:1] == ["sh"] else OTHER)
        else:
            step = (crate, kind_of(words, folder))
        taken = usage.ru_utime + usage.ru_stime
        with self.lock:
            self.seconds[step] = self.seconds.get(step, 0) + taken
        if crate is not None:
            print(f"rt: {step[0]}: {step[1]} took {taken:.1f} processor seconds", flush=True)

    @staticmethod
    def program_in(words):
        return os.path.basename(words[-1]) if words else ""

    def write(self, file):
        """Writes a line for each crate and kind: both, and the seconds."""
        with open(file, "w", encoding="utf-8") as it:
            it.writelines(f"{crate} {kind} {taken:.2f}\n" for (crate, kind), taken in self.seconds.items())


def watch():
    """Begins to account for each process that this one starts and waits for. The account is returned."""
    account = Account()
    begin, wait = subprocess.Popen.__init__, subprocess.Popen._try_wait

    def begin_in(self, *given, **named):
        self.started_in = named.get("cwd")
        begin(self, *given, **named)

    def try_wait(self, flags):
        try:
            ended, status, usage = os.wait4(self.pid, flags)
        except ChildProcessError:
            return wait(self, flags)
        if ended == self.pid:
            words = [self.args] if isinstance(self.args, str) else [os.fsdecode(word) for word in self.args]
            account.note(words, self.started_in, usage)
        return ended, status

    subprocess.Popen.__init__, subprocess.Popen._try_wait = begin_in, try_wait
    return account
