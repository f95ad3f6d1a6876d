#!/usr/bin/env python3
"""Prints what statements of one or two turns take over tables of few and of many parts of one row: no turn is to do work for each part.

The words are the runs, and the program with its words, `--path` the last of them. A root of the workload `events` is made with 250, 900 and
2700 parts. Over a copy of it run 200 statements of a kind, and an empty script: printed is the CPU time of a statement beyond opening, in
microseconds, the least of the runs. It is the time of the whole statement, of which the turn under the lock is a part. The kinds are
  explain   an EXPLAIN of one key: a snapshot of the table, the plan, and the snapshot given back
  select    a SELECT of one key: the same, and a granule read
  insert    an INSERT of one row: the table's schema, a look, and the commit
  optimize  an OPTIMIZE of two parts: the work taken, the parts merged, the result put, and a look
It asks for no speed: it ends with 0 whatever it found, and fails where the program does not end with 0.
The folders are in TMPDIR, or, where it is not set, in /dev/shm.
"""
import os
import pathlib
import shutil
import subprocess
import sys
import tempfile

import asked

PARTS = [250, 900, 2700]
STATEMENTS = 200
KINDS = {
    "explain": "EXPLAIN SELECT b FROM e WHERE k = 5;\n",
    "select": "SELECT b FROM e WHERE k = 5;\n",
    "insert": "INSERT INTO e;\n5\t5\t5\tfive\t5\n\\.\n",
    "optimize": "OPTIMIZE TABLE e;\n",
}


def least(work, words, script, runs):
    """The least CPU time of a script over copies of the root, in milliseconds."""
    (work / "script").write_text(script)
    found = []
    for _ in range(runs):
        shutil.copytree(work / "root", work / "copy")
        found.append(asked.run([*words, work / "copy"], work / "script", work / "replies")[0])
        shutil.rmtree(work / "copy")
    return min(found)


def measure(parts, words, runs):
    """The microseconds of a statement of each kind over so many parts."""
    memory = "/dev/shm" if "TMPDIR" not in os.environ and os.path.isdir("/dev/shm") else None
    with tempfile.TemporaryDirectory(dir=memory) as place:
        work = pathlib.Path(place)
        make = [sys.executable, asked.HERE / "events.py", str(parts), "1", "0"]
        (work / "insert").write_bytes(subprocess.run(make, stdout=subprocess.PIPE, check=True).stdout)
        asked.run([*words, work / "root"], work / "insert", work / "made")
        opening = least(work, words, "", runs)
        times = {kind: least(work, words, STATEMENTS * text, runs) for kind, text in KINDS.items()}
        return {kind: (time - opening) / STATEMENTS * 1000 for kind, time in times.items()}


def main():
    runs, words = int(sys.argv[1]), sys.argv[2:]
    print(f"{'parts':>8}" + "".join(f"{kind:>12}" for kind in KINDS))
    for parts in PARTS:
        found = measure(parts, words, runs)
        print(f"{parts:>8}" + "".join(f"{found[kind]:>9.0f} us" for kind in KINDS), flush=True)


if __name__ == "__main__":
    main()
