#!/usr/bin/env python3
"""Measures OPTIMIZE .. FINAL over a root of the workload `events`: what it takes of CPU time beyond opening the root.

The words are the parts, the rows of each, the runs, and the program with its words, `--path` the last of them; a twin may follow after a
word `--`, with its words. For each engine the programs each make a root of the same script, which is not measured. Then they take turns
over copies of these roots: an empty script, and an OPTIMIZE of all parts into one. The keys of ReplacingMergeTree are cut, so that each
occurs about ten times. Printed are of each engine the least CPU time (user and system) of the runs, without the least one of the empty
script, and the peak memory. It fails where a program does not end with 0, and where the replies or the files of the merged part differ.
The folders are in TMPDIR, or, where it is not set, in /dev/shm.
"""
import os
import pathlib
import shutil
import subprocess
import sys
import tempfile

from asked import run

HERE = pathlib.Path(__file__).resolve().parent
ENGINES = ["MergeTree", "ReplacingMergeTree"]
ASK = "OPTIMIZE TABLE e FINAL;\n"


def engine_text(engine):
    """What stands in a CREATE of this engine in place of `c UInt8) ENGINE = MergeTree`."""
    return b"c Int8) ENGINE = CollapsingMergeTree(c)" if engine == "CollapsingMergeTree" else b"c UInt8) ENGINE = %s" % engine.encode()


def cut(engine, keys, states, line):
    """A row with its key cut to one of these. Where rows are summed those of a key have one text, and where they are collapsed the signs
    of a key alternate: a key is among the states while its last row is one. So FINAL has one answer."""
    key, a, b, text, c = line.split(b"\t")
    key = int(key) % keys
    if engine == "SummingMergeTree":
        text = b"event %014d" % key
    if engine == "CollapsingMergeTree":
        c = b"-1" if key in states else b"1"
        states.symmetric_difference_update([key])
    return b"%d\t%s\t%s\t%s\t%s" % (key, a, b, text, c)


def script_of(engine, parts, rows):
    """The script that makes the table and its parts."""
    script = subprocess.run([sys.executable, HERE / "events.py", str(parts), str(rows), "0"], stdout=subprocess.PIPE, check=True).stdout
    if engine == "MergeTree":
        return script
    keys, states = max(parts * rows // 10, 1), set()
    lines = script.replace(b"c UInt8) ENGINE = MergeTree", engine_text(engine)).split(b"\n")
    return b"\n".join(cut(engine, keys, states, line) if b"\t" in line else line for line in lines)


def files_of(folder):
    """The bytes of the files of the part of the greatest level."""
    merged = max(folder.glob("e.part_*"), key=lambda part: int(part.name.rsplit("_", 1)[1]))
    return {file.name: file.read_bytes() for file in sorted(merged.iterdir())}


def measured(work, programs, runs):
    """Of each program the least CPU time of an empty script, and that of the OPTIMIZE with the peak memory."""
    found = {}
    for _ in range(runs):
        for program, words in programs.items():
            for name in ("opening", "ask"):
                room = work / "room"
                shutil.copytree(work / program, room)
                cpu, peak = run([*words, room], work / name, work / f"{program} {name}")
                if name == "ask":
                    (work / f"{program} part").write_text(repr(files_of(room)))
                shutil.rmtree(room)
                least, most = found.get((program, name), (cpu, peak))
                found[program, name] = min(least, cpu), max(most, peak)
    for told in ("ask", "part"):
        if len({(work / f"{program} {told}").read_bytes() for program in programs}) > 1:
            sys.exit(f"the {told} of the programs differs")
    return found


def main():
    parts, rows, runs = (int(word) for word in sys.argv[1:4])
    words, twin = sys.argv[4:], []
    if "--" in words:
        words, twin = words[: words.index("--")], words[words.index("--") + 1 :]
    programs = {"mergetree": words, **({"twin": twin} if twin else {})}
    memory = "/dev/shm" if "TMPDIR" not in os.environ and os.path.isdir("/dev/shm") else None
    for engine in ENGINES:
        with tempfile.TemporaryDirectory(dir=memory) as place:
            work = pathlib.Path(place)
            (work / "insert").write_bytes(script_of(engine, parts, rows))
            (work / "opening").write_text("")
            (work / "ask").write_text(ASK)
            for program, begin in programs.items():
                run([*begin, work / program], work / "insert", work / "made")
            found = measured(work, programs, runs)
            print(f"{engine}: {parts} parts of {rows} rows")
            for program in programs:
                (opening, _), (cpu, peak) = found[program, "opening"], found[program, "ask"]
                print(f"{program}: {cpu - opening:.1f} ms CPU beyond the {opening:.1f} ms of opening, {peak} KiB")


if __name__ == "__main__":
    main()
