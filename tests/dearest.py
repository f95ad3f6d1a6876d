#!/usr/bin/env python3
"""Which functions take longest to prove: the seconds by function of a crate's check from nothing, by one process.

    tests/dearest.py [--most N] CRATE ..

Prints the N dearest functions (20) over all the crates that are named, each with its seconds on the clock, then of each crate the whole
check, with the time before the first function: reading, and loading the logic. A function's seconds are those since the one before it
ended, so the first function of a crate, marked by *, has some of the loading in it. Machines that do something else beside make all of
these longer. What the crates stand on is built first, by bin/build; out/ of the crates that are named is neither read nor changed.
"""
import argparse
import importlib.machinery
import importlib.util
import os
import re
import subprocess
import sys
import tempfile
import time

sys.dont_write_bytecode = True
ROOT = os.path.dirname(os.path.dirname(os.path.realpath(__file__)))
CHECKED = re.compile(r"checked (\S+), \d+ of \d+$")


def load_build():
    """bin/build, of which what finds the kit and the crates is used."""
    loader = importlib.machinery.SourceFileLoader("build", os.path.join(ROOT, "bin", "build"))
    build = importlib.util.module_from_spec(importlib.util.spec_from_loader("build", loader))
    loader.exec_module(build)
    return build


def checked(kit, crate):
    """Checks the crate, and gives its functions with their seconds, its stages with theirs, and whether it is proved."""
    with tempfile.NamedTemporaryFile("r", suffix=".stages") as stages:
        words = [kit.RATTLE, "check", *crate.words(["--jobs", "1"], keeps=False), "--progress", "--stage-times", stages.name]
        how = {"cwd": crate.folder, "stdin": subprocess.DEVNULL, "stdout": subprocess.PIPE, "stderr": subprocess.STDOUT, "text": True}
        found, last, line = [], time.monotonic(), ""
        with subprocess.Popen([*kit.guarded(), *words], **how) as ran:
            for line in ran.stdout:
                function, now = CHECKED.match(line), time.monotonic()
                if function:
                    found.append((function[1], now - last))
                if function or line.startswith("so far: 0 of"):
                    last = now
        rows = [row.split() for row in open(stages.name, encoding="utf-8")]
        took = {row[1]: float(row[2]) for row in rows if row[0] == "stage"}
    if ran.returncode:
        print(f"{crate.name} is not proved: {line.strip()}", file=sys.stderr)
    return found, took, ran.returncode == 0


def main():
    parser = argparse.ArgumentParser(description="Which functions take longest to prove.")
    parser.add_argument("--most", metavar="N", type=int, default=20, help="how many functions are printed")
    parser.add_argument("crates", metavar="CRATE", nargs="+", help="a folder of crates/")
    given = parser.parse_args()
    build = load_build()
    kit = build.load_kit()
    if not kit:
        print("this kit has another rtlib.py than bin/build and this script use", file=sys.stderr)
        return 2
    kit.guarded()
    functions, wholes, all_proved = [], [], True
    for name in given.crates:
        crate = build.crates_of(kit, name)[-1]
        for low in crate.deps:
            if not low.is_built() and subprocess.run([os.path.join(ROOT, "bin", "build"), low.name]).returncode:
                return 1
        begun = time.monotonic()
        found, took, is_proved = checked(kit, crate)
        all_proved = all_proved and is_proved
        functions += [(seconds, f"{function}{'' if at else ' *'}") for at, (function, seconds) in enumerate(found)]
        ahead = sum(took.values()) - took.get("session", 0)
        wholes.append(f"{time.monotonic() - begun:8.1f}  {name}, of which {ahead:.1f} beside the proofs; {len(found)} functions")
    for seconds, function in sorted(functions, reverse=True)[: given.most]:
        print(f"{seconds:8.1f}  {function}")
    print("whole checks:")
    print("\n".join(wholes))
    return 0 if all_proved else 1


if __name__ == "__main__":
    sys.exit(main())
