"""Runs scripts of tests/ side by side, as many as there are processors, and counts them.

They stand in folders by who is asked: the compiler, its messages, the player, both programs, the house (this repository
itself: documents, packages, what is installed), or others too (players and compilers that are not ours).

Each script's output is shown when it ends, with the processor seconds that it took. A script says by a line of its own
what it needs: `# Needs the proved programs.` where only they do (stack, memory, instructions), so that on others it is
skipped; `# Runs alone.` where it has a terminal or a clock, so that nothing runs beside it. A script that ends with the
status of `SKIPPED` in tests/need is skipped, too: it neither passes nor fails."""

import concurrent.futures
import os
import re
import signal
import subprocess
import sys
import time

TOP = os.path.dirname(os.path.dirname(os.path.realpath(__file__)))
NEEDS_PROOF = b"# Needs the proved programs.\n"
ALONE = b"# Runs alone.\n"
FOLDERS = ("compiler", "messages", "player", "both", "house", "others")

# Stands in bin/ beside programs that were built without a proof.
UNPROVED = "bin/unproved"


def skipped_status():
    """The status of a script that is skipped."""
    with open(f"{TOP}/tests/need", encoding="utf-8") as it:
        return int(re.search(r"^SKIPPED=(\d+)$", it.read(), re.M)[1])


def says(script, line):
    """Whether a line stands in a script."""
    with open(f"{TOP}/{script}", "rb") as it:
        return line in it


def is_script(path):
    """Whether a file is a script, and no module or text."""
    if not os.path.isfile(f"{TOP}/{path}") or path.endswith(".py"):
        return False
    with open(f"{TOP}/{path}", "rb") as it:
        return it.read(2) == b"#!"


def scripts_of(folder):
    """The scripts of a folder of tests/."""
    paths = [f"tests/{folder}/{name}" for name in sorted(os.listdir(f"{TOP}/tests/{folder}"))]
    return [path for path in paths if is_script(path)]


def named(name):
    """The scripts that a name stands for: all of a folder, or the first of this name, which may have its folder."""
    if name in FOLDERS:
        return scripts_of(name)
    for path in (f"tests/{name}", *(f"tests/{folder}/{name}" for folder in FOLDERS)):
        if is_script(path):
            return [path]
    print(f"test: there is no script {name} in the folders of tests/", file=sys.stderr)
    sys.exit(2)


def seconds_of(scripts):
    """What each script took when it was last measured; 0 where that is not known."""
    with open(f"{TOP}/seconds.txt", encoding="utf-8") as it:
        known = dict(re.findall(r"^(tests/\S+): (\d+)", it.read(), re.M))
    return {script: int(known.get(script, 0)) for script in scripts}


def take_signals():
    """Gives the signals of a terminal their default, which a caller in the background has taken away."""
    for number in (signal.SIGINT, signal.SIGQUIT):
        signal.signal(number, signal.SIG_DFL)


class Count:
    """How many scripts passed, failed and were skipped, and the processor seconds of each."""

    def __init__(self):
        self.passed = self.failed = self.skipped = 0
        self.seconds = {}
        self.skips = skipped_status()

    def take(self, script, status, said, used, clock):
        """Counts a script that has ended, and shows what it said."""
        taken = used.ru_utime + used.ru_stime
        self.seconds[script] = taken
        print(f"== {script}\n{said}", end="")
        how = ""
        if status == self.skips:
            self.skipped += 1
            how = ", skipped"
        elif status:
            self.failed += 1
            how = ", FAILED"
        else:
            self.passed += 1
        print(f"{script}: {taken:.1f} processor seconds, {clock:.0f} by the clock{how}", flush=True)


def run(script):
    """Runs a script, and returns its status, what it said, its resource usage and the seconds by the clock."""
    begun = time.monotonic()
    child = subprocess.Popen(
        [f"./{script}"],
        cwd=TOP,
        stdin=subprocess.DEVNULL,
        stdout=subprocess.PIPE,
        stderr=subprocess.STDOUT,
        preexec_fn=take_signals,
    )
    said = child.stdout.read().decode(errors="replace")
    _, status, used = os.wait4(child.pid, 0)
    child.returncode = -os.WTERMSIG(status) if os.WIFSIGNALED(status) else os.WEXITSTATUS(status)
    return child.returncode, said, used, time.monotonic() - begun


def run_all(scripts):
    """Runs scripts, those that run alone at the end, and returns their count."""
    count, left = Count(), []
    for script in scripts:
        if os.path.exists(f"{TOP}/{UNPROVED}") and says(script, NEEDS_PROOF):
            print(f"== {script}\nskipped: it needs the proved programs, which ./prove makes")
            count.skipped += 1
        else:
            left.append(script)
    seconds = seconds_of(left)
    left.sort(key=seconds.get, reverse=True)
    alone = [script for script in left if says(script, ALONE)]
    with concurrent.futures.ThreadPoolExecutor(os.cpu_count()) as pool:
        running = {pool.submit(run, script): script for script in left if script not in alone}
        for ended in concurrent.futures.as_completed(running):
            count.take(running[ended], *ended.result())
    for script in alone:
        count.take(script, *run(script))
    return count


def stop_on_lost():
    """Ends the run if a script stands in no folder, where it would not be run."""
    lost = [name for name in sorted(os.listdir(f"{TOP}/tests")) if is_script(f"tests/{name}")]
    if lost:
        sys.exit(f"test: in no folder of tests/, and never run: {', '.join(lost)}")


def main():
    """Runs the scripts that are named, or all, and writes to the file of the first word how many passed, failed and were
    skipped, and a line for each script with its processor seconds."""
    stop_on_lost()
    file, *names = sys.argv[1:]
    scripts = [script for name in names or FOLDERS for script in named(name)]
    count = run_all(list(dict.fromkeys(scripts)))
    with open(file, "w", encoding="utf-8") as it:
        it.write(f"{count.passed} {count.failed} {count.skipped}\n")
        it.writelines(f"{script} {taken:.2f}\n" for script, taken in count.seconds.items())


main()
