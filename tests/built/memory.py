#!/usr/bin/env python3
"""Refuses each allocation of the built program in turn, and compares what it replies and what the next run reads with what is wanted.

A round is in a new folder of its own, outside the repository. A run of a script has its n-th allocation refused, for n = 1, 2 and so on
until there are no more (`refuse.c`, loaded into the program by LD_PRELOAD); in a second turn all from the n-th on. The scripts are
  new      a CREATE, an INSERT over three partitions and a SELECT, over a folder that is not there
  insert   two INSERTs over three partitions and a SELECT, over a folder with a table that has parts
  open     no statement, over a folder with two tables that have parts
  select   two SELECTs, over the same
  where    SELECTs with conditions and EXPLAINs, over a folder with a table that has parts
  final    SELECTs with FINAL, of which one has a condition, and an EXPLAIN, over a folder with a table that has parts to fold
  optimize one merge, a merge of each partition to one part and a SELECT, over a folder with a table that has parts to merge
The table has two skip indexes. Wanted are (docs/replies.md, "Statuses")
  of the run            status 6, and the replies to the first statements, whole; all replies and status 0 where the program did without
                        what was refused
  of the next run       status 0, and the rows of the first n commands; n is as many as were answered, and of the statement at which memory
                        was refused up to all but its last; of one whose reply could not be written, all
  of the folder         each file as it was, where the script only reads
  of one run more       an INSERT into one partition, and its rows
It prints a line for each script and turn, and one for each round that differs, and ends with 1 where one does. A sweep has at most 5000
rounds, and a run 60 seconds. The folders are in TMPDIR, or, where it is not set, in /dev/shm, since a round makes some hundred syncs. It
needs `cc` and glibc, and says so where they are not there; then nothing was tried, and the status is 2. Where MERGETREE is set, it is the
program that is run. Words are the names of scripts, all of them if they are left out.
"""
import collections
import os
import pathlib
import shutil
import subprocess
import sys
import tempfile

HERE = pathlib.Path(__file__).resolve().parent
PROGRAM = os.environ.get("MERGETREE", str(HERE / "../../bin/mergetree"))
MOST = 5000
INDEXES = "INDEX i s TYPE set(9) GRANULARITY 1, INDEX j a TYPE minmax GRANULARITY 2"
TABLE = f"CREATE TABLE t (p UInt8, a UInt16, s String, {INDEXES}) ENGINE = MergeTree PARTITION BY p ORDER BY a;\n"
OTHER = "CREATE TABLE u (a UInt16) ENGINE = MergeTree ORDER BY a;\nINSERT INTO u;\n4\n3\n\\.\n"

# A statement of a script: its text, the rows of t that each of its commands adds, and its reply where it is neither OK nor all rows of t.
Statement = collections.namedtuple("Statement", "text adds reply", defaults=[None])


def insert(*partitions):
    """An INSERT of rows of these partitions, in this order: numbers of a text each."""
    lines, adds = [], {}
    for place, partition in enumerate(partitions):
        line = f"{partition}\t{9 - place}\trow {place}"
        lines.append(line)
        adds.setdefault(partition, []).append(line)
    return Statement("INSERT INTO t;\n" + "".join(f"{line}\n" for line in lines) + "\\.\n", list(adds.values()))


CREATE = Statement(TABLE, [[]])
SELECT = Statement("SELECT * FROM t;\n", [])
# The statements of a script, and those before it; and whether the script merges parts.
Sweep = collections.namedtuple("Sweep", "before script merges", defaults=[False])
BASE = [CREATE, insert(1, 3, 1)]
ASKED = [
    Statement("SELECT s FROM t WHERE a > 7 AND NOT p = 3;\n", [], b"ROWS 1 PREFIX 3\nrow 0\n"),
    Statement("SELECT p FROM t WHERE s IN ('row 1', 'row 2') OR (a = 9 AND s < 'x');\n", [], b"ROWS 3 PREFIX 3\n1\n1\n3\n"),
    Statement("EXPLAIN SELECT s FROM t WHERE p = 3;\n", [], b"PARTS 1/2 GRANULES 1/2 PREFIX 3\n"),
    Statement("EXPLAIN SELECT a FROM t WHERE s = 'row 1';\n", [], b"PARTS 1/2 GRANULES 1/2 PREFIX 3\n"),
]
FOLDING = [
    Statement("SELECT * FROM t FINAL;\n", []),
    Statement("SELECT s FROM t FINAL WHERE a > 7 AND NOT p = 3;\n", [], b"ROWS 2 PREFIX 5\nrow 0\nrow 0\n"),
    Statement("EXPLAIN SELECT s FROM t FINAL WHERE p = 3;\n", [], b"PARTS 2/4 GRANULES 2/4 PREFIX 5\n"),
]
MERGING = [Statement("OPTIMIZE TABLE t;\n", [], b"OK 7\n"), Statement("OPTIMIZE TABLE t FINAL;\n", [], b"OK 7\n"), SELECT]
SWEEPS = {
    "new": Sweep([], [CREATE, insert(2, 1, 2, 3), SELECT]),
    "insert": Sweep(BASE, [insert(2, 1, 2, 3), insert(3, 2, 1), SELECT]),
    "open": Sweep([*BASE, Statement(OTHER, [[], []])], []),
    "select": Sweep([*BASE, Statement(OTHER, [[], []])], [SELECT, SELECT]),
    "where": Sweep(BASE, ASKED),
    "final": Sweep([*BASE, insert(1, 3, 1)], FOLDING),
    "optimize": Sweep([*BASE, insert(1, 3, 1), insert(1, 3)], MERGING, True),
}


def text_of(statements):
    return "".join(statement.text for statement in statements).encode()


def commands_of(statements):
    return [rows for statement in statements for rows in statement.adds]


def table_after(commands):
    """The reply to the SELECT after these commands, of which the first makes the table."""
    if not commands:
        return b"E02 t\n"
    rows = sorted((row for added in commands for row in added), key=lambda row: [int(field) for field in row.split("\t")[:2]])
    return f"ROWS {len(rows)} PREFIX {len(commands)}\n".encode() + "".join(f"{row}\n" for row in rows).encode()


def replies_of(sweep):
    """The reply to each statement of the script."""
    done, replies = commands_of(sweep.before), []
    for statement in sweep.script:
        done = done + statement.adds
        replies.append(statement.reply or (f"OK {len(done)}\n".encode() if statement.adds else table_after(done)))
    return replies


def run(folder, script, environment=None):
    """Runs the program on a script over the folder, and gives its status and what it wrote."""
    words = [PROGRAM, "--path", str(folder)]
    done = subprocess.run(words, input=script, stdout=subprocess.PIPE, timeout=60, env=environment, check=False)
    return done.returncode, done.stdout


def files_of(folder):
    """The files of a folder but its lock, with their bytes; none where there is no folder."""
    return {str(path): path.read_bytes() for path in folder.rglob("*") if path.is_file() and path.name != ".lock"}


class Round:
    """A round: what the run came to of which allocations were refused."""

    def __init__(self, sweep, status, wrote, counts):
        self.sweep, self.status, self.wrote = sweep, status, wrote
        self.asked, self.refused = counts
        self.replies = replies_of(sweep)
        self.answered = sum(wrote.startswith(b"".join(self.replies[: n + 1])) for n in range(len(self.replies)))

    def reply_differences(self):
        """How the status and the replies differ from what is wanted."""
        rest = self.wrote[len(b"".join(self.replies[: self.answered])) :]
        is_whole = self.answered == len(self.replies)
        if not rest and (self.status == 6 or self.status == 0 and is_whole):
            return
        yield f"status {self.status}, {self.answered} statements answered, and then {rest[:100]}"

    def lengths(self):
        """The numbers of commands that may stand after the run."""
        acknowledged = len(commands_of(self.sweep.before + self.sweep.script[: self.answered]))
        next_one = self.sweep.script[self.answered : self.answered + 1]
        return range(acknowledged, acknowledged + max(len(commands_of(next_one)), 1))


def root_differences(folder, found, before):
    """How the root differs that a round left, in which these files were before."""
    if not commands_of(found.sweep.script) and not found.sweep.merges and files_of(folder) != before:
        yield "files have changed"
    commands = commands_of(found.sweep.before + found.sweep.script)
    status, wrote = run(folder, SELECT.text.encode())
    fits = [n for n in found.lengths() if wrote == table_after(commands[:n])]
    if not fits or status != (0 if fits[0] else 1):
        yield f"status {status} of the next run, which wrote {wrote[:200]}"
        return
    more = [insert(3)] if fits[0] else [CREATE, insert(3)]
    after = commands[: fits[0]] + commands_of(more)
    status, wrote = run(folder, text_of(more + [SELECT]))
    if status or not wrote.endswith(f"OK {len(after)}\n".encode() + table_after(after)):
        yield f"status {status} of one run more, which wrote {wrote[:200]}"


class Sweeps:
    """What is counted, and where the rounds are tried."""

    def __init__(self, work):
        self.work = work
        self.library = work / "refuse.so"
        self.differ = 0

    def try_round(self, name, first, last):
        """Tries a round: what was found, and how it differs."""
        sweep, folder, report = SWEEPS[name], self.work / "room", self.work / "report"
        shutil.rmtree(folder, ignore_errors=True)
        if sweep.before:
            shutil.copytree(self.work / name, folder)
        before = files_of(folder)
        report.unlink(missing_ok=True)
        refusing = {"LD_PRELOAD": self.library, "REFUSE_FIRST": str(first), "REFUSE_LAST": str(last), "REFUSE_REPORT": report}
        status, wrote = run(folder, text_of(sweep.script), {**os.environ, **refusing})
        if not report.exists():
            return None, [f"status {status}, and it did not come to its end"]
        found = Round(sweep, status, wrote, [int(word) for word in report.read_text().split()])
        return found, [*found.reply_differences(), *root_differences(folder, found, before)]

    def try_sweep(self, name, is_on):
        """Tries the rounds of a script until nothing is refused, and prints its line."""
        if SWEEPS[name].before:
            run(self.work / name, text_of(SWEEPS[name].before))
        statuses, number, is_over = collections.Counter(), 0, False
        while not is_over and number < MOST:
            number += 1
            found, differences = self.try_round(name, number, sys.maxsize if is_on else number)
            is_over = found is not None and not found.refused
            if found and found.refused:
                statuses[found.status] += 1
            if differences:
                self.differ += 1
                print(f"{name}, {number}{' and on' if is_on else ''}: {'; '.join(differences)}", flush=True)
        shutil.rmtree(self.work / name, ignore_errors=True)
        told = ", ".join(f"{statuses[status]} of status {status}" for status in sorted(statuses))
        end = "" if is_over else ", and it was not through then"
        print(f"{name}, {'all from the n-th on' if is_on else 'the n-th'} refused: {number - 1} rounds{end}; {told}", flush=True)
        self.differ += not is_over


def main():
    names = sys.argv[1:] or list(SWEEPS)
    if not shutil.which("cc"):
        print("skipped: there is no cc on the path")
        return 2
    memory = "/dev/shm" if "TMPDIR" not in os.environ and os.path.isdir("/dev/shm") else None
    with tempfile.TemporaryDirectory(dir=memory) as place:
        sweeps = Sweeps(pathlib.Path(place))
        build = ["cc", "-O2", "-shared", "-fPIC", "-o", sweeps.library, HERE / "refuse.c"]
        if subprocess.run(build, check=False).returncode:
            print("skipped: cc does not build refuse.c, which is for glibc")
            return 2
        run(sweeps.work / "built", b"")  # builds the program, where needed
        for name in names:
            sweeps.try_sweep(name, False)
            sweeps.try_sweep(name, True)
    print(f"{sweeps.differ} rounds differ")
    return 1 if sweeps.differ else 0


if __name__ == "__main__":
    sys.exit(main())
