#!/usr/bin/env python3
"""Runs random scripts by the built program, and compares its replies with those that `tests/answers.py` works out.

The one word is the number of scripts, 200 if it is left out. A script makes one table of any engine, with one or two key columns, a
partition column or none, granules of one to three rows, and in two of three a skip index; adds at most ten rows, four of a key; merges by
OPTIMIZE in each form; and asks SELECTs and EXPLAINs, with FINAL and without it. Some statements are refused. Each runs over a new folder
outside the repository, by one of the policies of merges. In every other one the rows of each key fold to one thing, and the same SELECT with
FINAL stands before and after each OPTIMIZE: both must print the same. It prints its seed, and takes one from SEED; a script that differs is
printed, and the status is 1. Where MERGETREE is set, it is the program that is run.
"""
import os
import pathlib
import random
import re
import subprocess
import sys
import tempfile

HERE = pathlib.Path(__file__).resolve().parent
PROGRAM = os.environ.get("MERGETREE", str(HERE / "../../bin/mergetree"))
sys.path.insert(0, str(HERE.parent))
sys.dont_write_bytecode = True
from answers import Dice, Store, drawn_script  # pylint: disable=wrong-import-position

# All values are numbers, so a line that begins with a letter begins a reply.
REPLY = re.compile(rb"[A-Z][^\n]*\n(?:[^A-Z][^\n]*\n)*")


def changed(statements, replies):
    """The SELECTs that print another thing after a merge than before it, where the same one stands on both sides."""
    told = REPLY.findall(replies)
    for place, (kind, text) in enumerate(statements):
        if kind == "optimize" and told[place - 1] != told[place + 1]:
            yield f"{statements[place - 1][1]} is answered otherwise after {text}"


def faults(dice, is_settled, folder):
    """What is wrong with the replies to one script."""
    policy, statements = drawn_script(dice, is_settled)
    script = "".join(text for _, text in statements).encode()
    wanted = Store(policy).run(script)
    words = [PROGRAM, "--path", folder, "--policy", policy.decode()]
    done = subprocess.run(words, input=script, stdout=subprocess.PIPE, timeout=600, check=False)
    if (done.returncode, done.stdout) != wanted:
        lines = zip(wanted[1].split(b"\n"), done.stdout.split(b"\n"))
        first = next((pair for pair in lines if pair[0] != pair[1]), "none of the lines that both have")
        yield f"{script.decode()}\nstatus {done.returncode} in place of {wanted[0]}; wanted and printed: {first}"
    elif is_settled:
        yield from changed(statements, done.stdout)


def main():
    count = int(sys.argv[1]) if sys.argv[1:] else 200
    seed = int(os.environ.get("SEED") or random.randrange(1 << 32))
    print(f"seed {seed}")
    dice = Dice(seed)
    with tempfile.TemporaryDirectory() as place:
        subprocess.run([PROGRAM, "--path", f"{place}/built"], stdin=subprocess.DEVNULL, check=True)  # builds the program, where needed
        for number in range(count):
            for fault in faults(dice, number % 2 == 0, f"{place}/d{number}"):
                print(f"script {number}:\n{fault}")
                return 1
    print(f"{count} scripts, none differs")
    return 0


if __name__ == "__main__":
    sys.exit(main())
