#!/usr/bin/env python3
"""Measures merges of sorted rows by each engine's rule, in the program `time_merges` and in a plain Rust twin.

The words are the rows, the runs, the program and the twin. For each rule, for 2 and 8 inputs, and for 1, 2 and 10 rows with one key,
each of the two makes its rows and merges them three times, and makes them and merges nothing. Printed is a third of the difference in
user CPU time, the least of the runs, in milliseconds, and how many rows are left. It asks for no speed.
"""
import os
import subprocess
import sys

RULES = ["plain", "replacing", "versions", "summing", "collapsing", "versioned", "aggregating"]
TIMES = 3


def cpu(program, rule, rows, inputs, alike, times):
    """User CPU seconds of one run, and what it printed."""
    words = [program, rule, str(rows), str(inputs), str(alike), str(times)]
    before = os.times().children_user
    done = subprocess.run(words, stdout=subprocess.PIPE, check=True, timeout=300)
    return os.times().children_user - before, done.stdout.decode().strip()


def merged(program, rule, rows, inputs, alike, runs):
    """Milliseconds of one merge, and the rows that it leaves."""
    least_made = least_merged = float("inf")
    left = ""
    for _ in range(runs):
        made, _ = cpu(program, rule, rows, inputs, alike, 0)
        both, left = cpu(program, rule, rows, inputs, alike, TIMES)
        least_made, least_merged = min(least_made, made), min(least_merged, both)
    return (least_merged - least_made) * 1000 / TIMES, left


def main():
    rows, runs, program, twin = int(sys.argv[1]), int(sys.argv[2]), sys.argv[3], sys.argv[4]
    print("| Rule | Inputs | Rows a key | Left | Program, ms | Twin, ms |")
    print("|---|---|---|---|---|---|")
    for rule in RULES:
        for inputs in (2, 8):
            for alike in (1, 2, 10):
                own, left = merged(program, rule, rows, inputs, alike, runs)
                other, other_left = merged(twin, rule, rows, inputs, alike, runs)
                if left != other_left:
                    sys.exit(f"{rule}, {inputs} inputs, {alike} rows a key: {left} rows are left, {other_left} in the twin")
                print(f"| {rule} | {inputs} | {alike} | {left} | {own:.0f} | {other:.0f} |", flush=True)


main()
