#!/usr/bin/env python3
"""Runs random lists of events of the core, or random merges of parts, by the built `run_cases`, and compares what it prints.

    tests/built/lists.py [KIND [COUNT]]

KIND is `steps` if it is left out: lists of events with mutations, merges, rewrites, crashes and snapshots. `streams` are merges of parts
granule by granule, and `events` lists without mutations. COUNT is 10,000 if it is left out. They are those that `tests/answers.py KIND SEED
COUNT` prints. They come to the program in portions, each in a run of its own, of at most AT_MOST seconds and MOST_MEMORY bytes, and what it
prints is worked out by `tests/answers.py`. Where a list shows a choice that a rule leaves, nothing is worked out, and after each event the
visible parts must stand for the history, which the program itself looks at. The seed is 20261130, whose first 100 lists of `steps` are among
the cases of the gate; where SEED is set, it is the seed. The first that differs is printed, and the status is 1. The program is built first;
where RUN_CASES is set, that is the program that is run.
"""
import os
import pathlib
import resource
import subprocess
import sys

HERE = pathlib.Path(__file__).resolve().parent
ROOT = HERE.parent.parent
sys.path.insert(0, str(HERE.parent))
sys.dont_write_bytecode = True
from answers import Bench, Dice, drawn_lines  # pylint: disable=wrong-import-position

SEED = 20261130
PORTION = 500
AT_MOST = 600
MOST_MEMORY = 1 << 30
STANDS = (b"; the parts stand", b"; after 0 the parts do not stand")


def program():
    """The program, which is built where none is named."""
    if "RUN_CASES" in os.environ:
        return os.environ["RUN_CASES"]
    subprocess.run([ROOT / "bin" / "build", "run_cases"], stdin=subprocess.DEVNULL, check=True)
    return ROOT / "crates" / "run_cases" / "out" / "run_cases"


def printed(path, lines):
    """What the program prints of lines: of each the line, and what it comes to, nothing where that is nothing."""
    limit = lambda: resource.setrlimit(resource.RLIMIT_AS, (MOST_MEMORY, MOST_MEMORY))
    text = b"".join(line + b"\n" for line in lines)
    done = subprocess.run([path], input=text, stdout=subprocess.PIPE, preexec_fn=limit, timeout=AT_MOST, check=True)
    found = []
    for line in done.stdout.split(b"\n")[:-1]:
        if line.startswith(b"  ") and found:
            found[-1][1].append(line)
        else:
            found.append((line, []))
    return found


def answers(path, lines):
    """Runs directives. Gives of each that answers whether it was worked out, and what differs of it, where something does."""
    found, bench = printed(path, lines), Bench()
    if [line for line, _ in found] != lines:
        yield True, b"other lines are printed than there are"
        return
    script = b""
    for line, told in found:
        wanted = bench.told(line)
        script = line if line.startswith(b"script ") else script
        is_known = bool(wanted) or not line.startswith((b"steps ", b"course "))
        if told == wanted if is_known else len(told) == 1 and told[0].endswith(STANDS):
            if told:
                yield is_known, b""
        else:
            yield True, b"\n".join([script, line, b"worked out", *wanted, b"printed", *told])


def main():
    kind = sys.argv[1] if sys.argv[1:] else "steps"
    count = int(sys.argv[2]) if sys.argv[2:] else 10_000
    seed = int(os.environ.get("SEED") or SEED)
    print(f"seed {seed}")
    path, dice, tried, known = program(), Dice(seed), 0, 0
    while tried < count:
        size = min(PORTION, count - tried)
        lines = drawn_lines(kind, dice, size, f"of seed {seed}, from {tried}")
        for is_known, differing in answers(path, [line.encode() for line in lines]):
            known += is_known
            if differing:
                sys.stdout.buffer.write(differing + b"\n")
                return 1
        tried += size
        print(f"{tried} of {kind}, none differs", flush=True)
    print(f"{tried} of {kind}, {known} of them worked out, none differs")
    return 0 if known else 1


if __name__ == "__main__":
    sys.exit(main())
