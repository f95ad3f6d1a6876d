#!/usr/bin/env python3
"""Measures SELECTs with conditions over a root of the workload `events`: what they take of CPU time beyond opening the root.

The words are the kind of conditions (below), the rows, the INSERTs that they go into, the runs, and the program with its words,
`--path` the last of them; a twin may follow after a word `--`, with its words. The programs each make a root of the same script, which
is not measured. Then they take turns: an empty script over the root, and each script of SELECTs. Printed are of each script the least
CPU time (user and system) of the runs, without the least one of the empty script, and the peak memory of its runs. Runs differ by some
milliseconds, most of them in opening, so less than that says nothing. It fails where a program does not end with 0, and where the two
print other replies. The kinds are
  scan      ten SELECTs of two columns of the rows whose `a`, a random number that is not sorted, is in a hundredth of its range; and two
            for a half of it
  points    100 SELECTs of all columns of the row of one key each
  ranges    100 SELECTs of all columns of a thousandth of the rows each, by their keys
  lists     one SELECT each of two columns of the rows whose `a` is one of 100, of 1000 and of 5000 numbers of rows, by IN
  ands      one SELECT of the keys of the rows that meet 5000 tests of `a`, which nearly all do, joined by AND
The folders are in TMPDIR, or, where it is not set, in /dev/shm.
"""
import os
import pathlib
import subprocess
import sys
import tempfile

HERE = pathlib.Path(__file__).resolve().parent
SELECTS = 100
LISTS = [100, 1000, 5000]
TESTS = 5000


def keys_of(script):
    """The keys of the rows of a script, sorted."""
    return sorted(int(line.split(b"\t", 1)[0]) for line in script.split(b"\n") if b"\t" in line)


def lists_of(script):
    """The scripts of SELECTs by IN, each of some numbers of rows in their order there."""
    numbers = [line.split(b"\t")[1].decode() for line in script.split(b"\n") if b"\t" in line]
    chosen = {count: numbers[:: max(len(numbers) // count, 1)][:count] for count in LISTS}
    return {f"IN of {count}": f"SELECT k, b FROM e WHERE a IN ({', '.join(listed)});\n" for count, listed in chosen.items()}


def scripts_of(kind, script):
    """The scripts of SELECTs of a kind, by what they ask."""
    if kind == "lists":
        return lists_of(script)
    if kind == "ands":
        tests = " AND ".join(f"a < {2**32 - 1 - number}" for number in range(TESTS))
        return {f"{TESTS} tests": f"SELECT k FROM e WHERE {tests};\n"}
    if kind == "scan":
        select, part, half = "SELECT k, b FROM e WHERE a >= %d AND a < %d;\n", 2**32 // 100, 2**31
        hundredths = [select % (number * part, (number + 1) * part) for number in range(10)]
        return {"a hundredth": "".join(hundredths), "half of the rows": select % (0, half) + select % (half // 2, half // 2 + half)}
    keys = keys_of(script)
    places = [len(keys) * number // SELECTS for number in range(SELECTS)]
    if kind == "points":
        return {"points": "".join(f"SELECT * FROM e WHERE k = {keys[place]};\n" for place in places)}
    ends = [min(place + max(len(keys) // 1000, 1), len(keys) - 1) for place in places]
    select = "SELECT * FROM e WHERE k >= %d AND k < %d;\n"
    return {"ranges": "".join(select % (keys[place], keys[end]) for place, end in zip(places, ends))}


def run(words, script, output):
    """Runs a program, for twenty minutes at most: its CPU time in milliseconds and its peak memory in KiB."""
    figures = output.with_suffix(".figures")
    timed = ["env", "time", "-f", "%M", "-o", figures, "timeout", "1200", *words]
    with open(script, "rb") as source, open(output, "wb") as sink:
        process = subprocess.Popen(timed, stdin=source, stdout=sink)
        _, status, usage = os.wait4(process.pid, 0)
        process.returncode = os.waitstatus_to_exitcode(status)
    if process.returncode:
        sys.exit(f"{words[0]} did not end with status 0, or there is no GNU time")
    return (usage.ru_utime + usage.ru_stime) * 1000, int(figures.read_text())


def measure(work, programs, names, runs):
    """Runs the programs in turns on each script: of each program and script the least CPU time and the greatest peak."""
    found = {}
    for _ in range(runs):
        for program, words in programs.items():
            for name in names:
                output = work / f"{program} {name}"
                cpu, peak = run([*words, work / program], work / name, output)
                least, most = found.get((program, name), (cpu, peak))
                found[program, name] = min(least, cpu), max(most, peak)
        for name in names:
            if len({(work / f"{program} {name}").read_bytes() for program in programs}) > 1:
                sys.exit(f"{name}: the replies differ")
    return found


def main():
    kind, rows, inserts, runs = sys.argv[1], *(int(word) for word in sys.argv[2:5])
    words, twin = sys.argv[5:], []
    if "--" in words:
        words, twin = words[: words.index("--")], words[words.index("--") + 1 :]
    programs = {"mergetree": words, **({"twin": twin} if twin else {})}
    memory = "/dev/shm" if "TMPDIR" not in os.environ and os.path.isdir("/dev/shm") else None
    with tempfile.TemporaryDirectory(dir=memory) as place:
        work = pathlib.Path(place)
        make = [sys.executable, HERE / "events.py", str(inserts), str(max(rows // inserts, 1)), "0"]
        script = subprocess.run(make, stdout=subprocess.PIPE, check=True).stdout
        (work / "insert").write_bytes(script)
        for program, begin in programs.items():
            run([*begin, work / program], work / "insert", work / "made")
        scripts = {"opening": "", **scripts_of(kind, script)}
        for name, text in scripts.items():
            (work / name).write_text(text)
        found = measure(work, programs, scripts, runs)
        print(f"{rows} rows, {inserts} INSERTs")
        for name in list(scripts)[1:]:
            print(f"{name}: {(work / f'mergetree {name}').stat().st_size} bytes of replies")
            for program in programs:
                (opening, _), (cpu, peak) = found[program, "opening"], found[program, name]
                print(f"{program}, {name}: {cpu - opening:.1f} ms CPU beyond the {opening:.1f} ms of opening, {peak} KiB")


if __name__ == "__main__":
    main()
