#!/usr/bin/env python3
"""Measures SELECTs with FINAL over a root of the workload `events` in which each key occurs about ten times: what they take of CPU time
beyond opening the root.

The words are the parts, the rows of each, the runs, and the program with its words, `--path` the last of them; a twin may follow after a
word `--`, with its words. For each engine the programs each make a root of the same script, which is not measured (optimize.py has the
rows). Then they take turns: an empty script over the root, and each script of SELECTs. Printed are of each script how many rows it is
answered by, and of each program the least CPU time (user and system) of the runs, without the least one of the empty script, and the
peak memory. Runs differ by some milliseconds, most of them in opening, so less than that says nothing. It fails where a program does not
end with 0, and where the replies differ. The scripts are
  all           all rows that are left, with all columns
  a hundredth   two columns of those of them whose `a` is in a hundredth of its range; it is not sorted, so each granule is read
  points        ten SELECTs of the row of one key each, with all columns
The folders are in TMPDIR, or, where it is not set, in /dev/shm.
"""
import os
import pathlib
import sys
import tempfile

from asked import measure, run
from optimize import script_of

ENGINES = ["ReplacingMergeTree", "SummingMergeTree", "CollapsingMergeTree"]
POINTS = 10


def scripts_of(keys):
    """The scripts of SELECTs, by what they ask, where the keys are those below this number."""
    point = "SELECT * FROM e FINAL WHERE k = %d;\n"
    return {
        "all": "SELECT * FROM e FINAL;\n",
        "a hundredth": "SELECT k, b FROM e FINAL WHERE a >= 0 AND a < %d;\n" % (2**32 // 100),
        "points": "".join(point % (keys * number // POINTS) for number in range(POINTS)),
    }


def rows_in(replies):
    """How many rows the replies to SELECTs have."""
    return sum(int(line.split()[1]) for line in replies.split(b"\n") if line.startswith(b"ROWS "))


def measured(work, engine, programs, parts, rows, runs):
    """Makes the roots of one engine, and prints what its scripts take."""
    (work / "insert").write_bytes(script_of(engine, parts, rows))
    for program, begin in programs.items():
        run([*begin, work / program], work / "insert", work / "made")
    scripts = {"opening": "", **scripts_of(max(parts * rows // 10, 1))}
    for name, text in scripts.items():
        (work / name).write_text(text)
    found = measure(work, programs, scripts, runs)
    print(f"{engine}: {parts} parts of {rows} rows")
    for name in list(scripts)[1:]:
        print(f"{name}: {rows_in((work / f'mergetree {name}').read_bytes())} rows")
        for program in programs:
            (opening, _), (cpu, peak) = found[program, "opening"], found[program, name]
            print(f"{program}, {name}: {cpu - opening:.1f} ms CPU beyond the {opening:.1f} ms of opening, {peak} KiB")


def main():
    parts, rows, runs = (int(word) for word in sys.argv[1:4])
    words, twin = sys.argv[4:], []
    if "--" in words:
        words, twin = words[: words.index("--")], words[words.index("--") + 1 :]
    programs = {"mergetree": words, **({"twin": twin} if twin else {})}
    memory = "/dev/shm" if "TMPDIR" not in os.environ and os.path.isdir("/dev/shm") else None
    for engine in ENGINES:
        with tempfile.TemporaryDirectory(dir=memory) as place:
            measured(pathlib.Path(place), engine, programs, parts, rows, runs)


if __name__ == "__main__":
    main()
