#!/usr/bin/env -S python3 -B
"""Builds programs of this repository without their proofs, for trying them:

    tests/unproved.py FOLDER PROGRAM..

puts each into FOLDER under its name. What the toolchain's rt makes of the sources of a program for `rt try` is compiled
and linked as rt does it with a proved program. The checks of a run that `rt try` has, of array places and of sums, stay in:
so a program is slower than the proved one, and takes more of the stack."""

import concurrent.futures
import os
import shutil
import subprocess
import sys
import tempfile

TOP = os.path.dirname(os.path.dirname(os.path.realpath(__file__)))

# A compiler in place of the toolchain's, which keeps what it is to compile of the program and does no more.
KEEPER = """#!/bin/bash
for word; do case $word in *.bc) [ "$(stat -c %s "$word")" -lt 100000 ] || { cp "$word" "ROOM/module.bc"; exit 1; } ;; esac; done
exec -a "$0" KIT/toolchain/bin/clang "$@"
"""

# How a kept program is compiled: as rt does it, but for a level at which compiling is quick.
FLAGS = """--target=x86_64-unknown-linux-gnu -march=x86-64 -mllvm -no-trap-after-noreturn -ffunction-sections
-fdata-sections -mllvm -trap-unreachable --no-default-config -no-canonical-prefixes -fno-crash-diagnostics -fPIE -O1 -c
-x ir""".split()


def make_kit(kit, room):
    """Makes a toolchain whose compiler keeps what it is given; all else is that of the real one."""
    os.makedirs(f"{room}/kit/bin")
    os.makedirs(f"{room}/kit/toolchain/bin")
    for name in os.listdir(kit):
        if name not in ("bin", "toolchain"):
            os.symlink(f"{kit}/{name}", f"{room}/kit/{name}")
    for name in os.listdir(f"{kit}/bin"):
        # (rt finds its toolchain by the place of these two; what the prover would say beside a try is not wanted)
        make = shutil.copy if name in ("rt", "rtlib.py") else os.symlink
        make("/bin/true" if name == "rattle" else f"{kit}/bin/{name}", f"{room}/kit/bin/{name}")
    for name in os.listdir(f"{kit}/toolchain"):
        if name != "bin":
            os.symlink(f"{kit}/toolchain/{name}", f"{room}/kit/toolchain/{name}")
    for name in os.listdir(f"{kit}/toolchain/bin"):
        if name != "clang":
            os.symlink(f"{kit}/toolchain/bin/{name}", f"{room}/kit/toolchain/bin/{name}")
    with open(f"{room}/kit/toolchain/bin/clang", "w", encoding="utf-8") as it:
        it.write(KEEPER.replace("KIT", kit).replace("ROOM", room))
    os.chmod(f"{room}/kit/toolchain/bin/clang", 0o755)


def run(*words, **how):
    """Runs a command, and returns what it said; where it failed, the building ends with that."""
    ran = subprocess.run(words, stdout=subprocess.PIPE, stderr=subprocess.STDOUT, text=True, errors="replace", **how)
    if ran.returncode:
        sys.exit(f"unproved: {os.path.basename(words[0])} failed:\n{ran.stdout}")
    return ran.stdout


def build(program, folder):
    """Builds a program into a folder."""
    kit = os.path.dirname(os.path.dirname(os.path.realpath(shutil.which("rt") or sys.exit("unproved: rt is missing"))))
    with tempfile.TemporaryDirectory(prefix="unproved-") as room:
        make_kit(kit, room)
        tried = subprocess.run(
            [sys.executable, "-B", f"{TOP}/tests/rt.py", "try"],
            cwd=f"{TOP}/crates/{program}",
            env={**os.environ, "PATH": f"{room}/kit/bin:{os.environ['PATH']}"},
            stdin=subprocess.DEVNULL,
            stdout=subprocess.PIPE,
            stderr=subprocess.STDOUT,
            text=True,
            errors="replace",
        )
        if not os.path.exists(f"{room}/module.bc"):
            sys.exit(f"unproved: rt try made nothing of {program}:\n{tried.stdout}")
        run(f"{kit}/toolchain/bin/clang", *FLAGS, f"{room}/module.bc", "-o", f"{room}/module.o")
        libraries = [f"{kit}/c/libos_c.a", f"{kit}/c/liblibc_c.a"]
        words = ["--target", "x86_64-unknown-linux-gnu", "--toolchain", f"{kit}/toolchain", "-o", f"{room}/{program}"]
        run(f"{kit}/bin/rattle-link", *words, f"{room}/module.o", *libraries)
        shutil.move(f"{room}/{program}", f"{folder}/{program}")


def main():
    if len(sys.argv) < 3:
        sys.exit("usage: tests/unproved.py FOLDER PROGRAM..")
    folder, programs = sys.argv[1], sys.argv[2:]
    os.makedirs(folder, exist_ok=True)
    with concurrent.futures.ThreadPoolExecutor(len(programs)) as pool:
        for built in [pool.submit(build, program, folder) for program in programs]:
            built.result()


main()
