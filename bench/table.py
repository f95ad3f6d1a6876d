#!/usr/bin/env python3
"""Prints a table of what merges, and SELECTs with long conditions, take over roots of the workload `events`, and what is wanted of them.

The words are the runs, and the program with its words, `--path` the last of them; a twin may follow after a word `--`, with its words.
optimize.py and asked.py say what is measured: CPU time beyond opening the root, the least of the runs, and the peak memory of the whole
run, by GNU time. A row of the table has these of the program and of the twin, where the twin knows the statement, the time of the program
by that of the twin, and whether what is wanted holds: of merges of 8 parts of 125,000 rows at most 48 MB, and of all rows with a twin at
most 1.5 times its time. The last column of 3000 parts of one row is the time by that of 750 parts, which is wanted to be near 4. It asks for
no speed: it ends with 0 whatever holds. It fails where a program does not end with 0, and where the replies or the merged parts differ.
With a word `--small` before the runs all roots are small, so that the script itself is tried; then no figure says anything.
The folders are in TMPDIR, or, where it is not set, in /dev/shm.
"""
import os
import pathlib
import subprocess
import sys
import tempfile

import asked
import optimize

HERE = pathlib.Path(__file__).resolve().parent
MEMORY = 48.0  # MB, of a merge of the large parts
TIMES = 1.5  # of the twin's time
LARGE, MANY, FEWER = (8, 125_000), (3000, 1), (750, 1)  # parts, and the rows of each
LISTED = 1_000_000  # rows that are asked by IN
ANDS = [500, 1000, 2000]  # parts of one row that are asked by AND
TWINS = {"MergeTree", "ReplacingMergeTree"}  # the engines whose merges the twin knows
ENGINES = ["MergeTree", "ReplacingMergeTree", "SummingMergeTree", "CollapsingMergeTree"]


def megabytes(peak):
    """KiB as MB."""
    return peak * 1.024 / 1000


def made(work, programs, script):
    """Makes the root of each program by a script, which is not measured."""
    (work / "insert").write_bytes(script)
    for program, begin in programs.items():
        asked.run([*begin, work / program], work / "insert", work / "made")


def beyond(found, program, name):
    """The CPU time of a program beyond opening, in milliseconds, and its peak memory in MB; nothing where it was not measured."""
    if (program, name) not in found:
        return None
    (opening, _), (cpu, peak) = found[program, "opening"], found[program, name]
    return cpu - opening, megabytes(peak)


def merge(programs, engine, parts, rows, runs):
    """What an OPTIMIZE of these parts into one takes."""
    with tempfile.TemporaryDirectory(dir=room()) as place:
        work = pathlib.Path(place)
        known = programs if engine in TWINS else {"mergetree": programs["mergetree"]}
        made(work, known, optimize.script_of(engine, parts, rows))
        (work / "opening").write_text("")
        (work / "ask").write_text(optimize.ASK)
        found = optimize.measured(work, known, runs)
        return [beyond(found, program, "ask") for program in ("mergetree", "twin")]


def selects(programs, kind, rows, inserts, runs):
    """What the SELECTs of a kind take, by their names."""
    with tempfile.TemporaryDirectory(dir=room()) as place:
        work = pathlib.Path(place)
        make = [sys.executable, HERE / "events.py", str(inserts), str(max(rows // inserts, 1)), "0"]
        script = subprocess.run(make, stdout=subprocess.PIPE, check=True).stdout
        made(work, programs, script)
        scripts = {"opening": "", **asked.scripts_of(kind, script)}
        for name, text in scripts.items():
            (work / name).write_text(text)
        found = asked.measure(work, programs, scripts, runs)
        return {name: [beyond(found, program, name) for program in ("mergetree", "twin")] for name in list(scripts)[1:]}


def room():
    """Where the folders lie."""
    return "/dev/shm" if "TMPDIR" not in os.environ and os.path.isdir("/dev/shm") else None


def figures(pair):
    """Time and memory as they are printed."""
    return "-" if pair is None else f"{pair[0]:.0f} ms, {pair[1]:.0f} MB"


def line(what, own, twin, most=None, more=""):
    """Prints a row of the table."""
    by = own[0] / twin[0] if twin and twin[0] > 0 else None
    holds = [own[1] <= most] if most else []
    holds += [by <= TIMES] if by is not None else []
    wanted = [f"{most:.0f} MB"] if most else []
    wanted += [f"{TIMES} times"] if by is not None else []
    ratio = "-" if by is None else f"{by:.2f}"
    answer = "-" if not holds else "yes" if all(holds) else "no"
    print(f"| {what} | {figures(own)} | {figures(twin)} | {ratio} | {', '.join(wanted) or '-'} | {answer} | {more or '-'} |", flush=True)


def sizes(small):
    """The sizes of the roots: large, many and fewer parts, rows asked by IN, and numbers of parts asked by AND."""
    return ((2, 100), (8, 1), (2, 1), 1000, [2, 4]) if small else (LARGE, MANY, FEWER, LISTED, ANDS)


def main():
    words, small = sys.argv[1:], False
    if words[0] == "--small":
        words, small = words[1:], True
    runs, words, twin = int(words[0]), words[1:], []
    if "--" in words:
        words, twin = words[: words.index("--")], words[words.index("--") + 1 :]
    programs = {"mergetree": words, **({"twin": twin} if twin else {})}
    large, many, fewer, listed, ands = sizes(small)
    print("| What | Program | Twin | By the twin | Wanted | Holds | By fewer parts |")
    print("|---|---|---|---|---|---|---|")
    for engine in ENGINES:
        own, other = merge(programs, engine, *large, runs)
        line(f"OPTIMIZE of {large[0]} parts of {large[1]} rows, {engine}", own, other, MEMORY)
    few, few_twin = merge(programs, "MergeTree", *fewer, runs)
    line(f"OPTIMIZE of {fewer[0]} parts of one row", few, few_twin)
    own, other = merge(programs, "MergeTree", *many, runs)
    line(f"OPTIMIZE of {many[0]} parts of one row", own, other, more=f"{own[0] / few[0]:.1f} times" if few[0] > 0 else "")
    for name, (own, other) in selects(programs, "lists", listed, 1, runs).items():
        line(f"{name} numbers, one part of {listed} rows", own, other)
    before = None
    for parts in ands:
        for name, (own, other) in selects(programs, "ands", parts, parts, runs).items():
            line(f"{name} joined by AND, {parts} parts of one row", own, other, more=f"{own[0] / before:.1f} times" if before else "")
            before = own[0]


if __name__ == "__main__":
    main()
