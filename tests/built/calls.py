#!/usr/bin/env python3
"""Fails each call of the system that the built program makes of files and folders, or kills the program at it, and compares what it replies
and what the next run reads with what is wanted.

    tests/built/calls.py [KIND ..]

A round is in a new folder of its own, outside the repository: a run of one of the scripts of `memory.py` whose n-th call fails, for n = 1, 2
and so on until there are no more (`calls.c`, loaded into the program by LD_PRELOAD). The kinds are
  kill                          the program is killed before the n-th call
  EIO, ENOSPC, EMFILE, EINTR    the n-th call fails with this error
  EIO+, ENOSPC+, EMFILE+        all from the n-th on
  usual                         kill and EIO, which are tried if the words are left out
  long                          all of these
Wanted are (docs/replies.md, "Faults")
  of each statement     its reply as if nothing had failed, or E15, E16 or E17 with what was accepted of it before; and nothing more where
                        the input or the output failed, or the program was killed
  of the status         0 where each reply is as if nothing had failed; else 5; where replies are missing 3, 4 or, where there is none, 5
  of EINTR              status 0: a call that was interrupted is made again
  of the next run       status 0 or, where no table was made, 1; and the rows of the commands that were accepted. After E16 the command
                        that failed may be there; after a kill, or a reply that could not be written, more of the statement under way
  of one run more       an INSERT into one partition, and its rows
It prints a line for each script and kind, and one for each round that differs, and ends with 1 where one does. A run has 60 seconds. The
folders are in TMPDIR, or, where it is not set, in /dev/shm. It needs `cc` and glibc, and says so where they are not there; then nothing was
tried, and the status is 2. Where MERGETREE is set, it is the program that is run.
"""
import collections
import errno
import os
import pathlib
import re
import shutil
import signal
import subprocess
import sys
import tempfile

HERE = pathlib.Path(__file__).resolve().parent
sys.path.insert(0, str(HERE))
sys.dont_write_bytecode = True
from memory import CREATE, PROGRAM, SELECT, SWEEPS, commands_of, insert, run, table_after, text_of  # pylint: disable=wrong-import-position

MOST = 20000
USUAL = ["kill", "EIO"]
KINDS = ["kill", "EIO", "ENOSPC", "EMFILE", "EINTR", "EIO+", "ENOSPC+", "EMFILE+"]
FAULT = re.compile(rb"E15\n|E16 (\d+)\n|E17 \d+ \d+ (\d+)\n")


class Replies:
    """What the replies of a run say: the commands that stand, those that may stand beside them, and how the replies differ."""

    def __init__(self, sweep, wrote):
        self.accepted, self.perhaps = commands_of(sweep.before), []
        self.faults = self.answered = 0
        self.rest = wrote
        for statement in sweep.script:
            if not self.take(statement):
                break
        self.is_whole = self.answered == len(sweep.script)
        # A statement whose reply was not written may have run.
        self.under_way = [] if self.is_whole else sweep.script[self.answered].adds

    def take(self, statement):
        """Takes the reply to a statement; none is left where this is false."""
        adds = statement.adds
        if not self.accepted and adds and statement is not CREATE:
            adds, wanted = [], b"E02 t\n"
        else:
            wanted = statement.reply or (b"OK %d\n" % (len(self.accepted) + len(adds)) if adds else table_after(self.accepted))
        fault = FAULT.match(self.rest)
        if self.rest.startswith(wanted):
            self.rest = self.rest[len(wanted) :]
        elif fault:
            done = int(fault[1] or fault[2] or 0)
            self.rest = self.rest[fault.end() :]
            self.faults += 1
            if fault[1]:
                self.perhaps = adds[done : done + 1]
            adds = adds[:done]
        else:
            return False
        self.accepted = self.accepted + adds
        self.answered += 1
        return True

    def lists(self):
        """The lists of commands that may stand."""
        if self.perhaps:
            return [self.accepted, self.accepted + self.perhaps]
        return [self.accepted + self.under_way[:count] for count in range(len(self.under_way) + 1)]


def reply_differences(kind, status, replies):
    """How the status and the replies of a run differ from what is wanted."""
    wanted = [0] if replies.is_whole and not replies.faults else [5] if replies.is_whole else [3, 4]
    if kind == "kill":
        wanted = [-signal.SIGKILL, *([0] if replies.is_whole else [])]
    elif kind == "EINTR":
        wanted = [0]
    elif not replies.answered:
        wanted = [3, 4, 5]
    cut = replies.rest if kind in ("kill",) or not replies.is_whole else b""
    if status not in wanted or replies.rest != cut or replies.rest and status not in (4, -signal.SIGKILL):
        yield f"status {status}, {replies.answered} statements answered, and then {replies.rest[:100]}"


def root_differences(folder, replies):
    """How the root differs that a round left."""
    status, wrote = run(folder, SELECT.text.encode())
    fits = [commands for commands in replies.lists() if wrote == table_after(commands)]
    if not fits or status != (0 if fits[0] else 1):
        yield f"status {status} of the next run, which wrote {wrote[:200]}"
        return
    more = [insert(3)] if fits[0] else [CREATE, insert(3)]
    after = fits[0] + commands_of(more)
    status, wrote = run(folder, text_of(more + [SELECT]))
    if status or not wrote.endswith(b"OK %d\n" % len(after) + table_after(after)):
        yield f"status {status} of one run more, which wrote {wrote[:200]}"


class Sweeps:
    """What is counted, and where the rounds are tried."""

    def __init__(self, work):
        self.work, self.library = work, work / "calls.so"
        self.differ = self.rounds = 0

    def try_round(self, name, kind, number):
        """Tries a round: its status, none where it made fewer calls, and how it differs."""
        sweep, folder, report = SWEEPS[name], self.work / "room", self.work / "report"
        shutil.rmtree(folder, ignore_errors=True)
        if sweep.before:
            shutil.copytree(self.work / name, folder)
        report.unlink(missing_ok=True)
        words = {
            "LD_PRELOAD": self.library, "CALLS_FIRST": str(number), "CALLS_LAST": str(sys.maxsize if kind.endswith("+") else number),
            "CALLS_ERROR": "0" if kind == "kill" else str(getattr(errno, kind.rstrip("+"))), "CALLS_REPORT": report,
        }  # fmt: skip
        status, wrote = run(folder, text_of(sweep.script), {**os.environ, **words})
        if report.exists() and report.read_text().split()[1] == "0":
            return None, []
        if kind != "kill" and not report.exists():
            return status, [f"status {status}, and it did not come to its end"]
        replies = Replies(sweep, wrote)
        return status, [*reply_differences(kind, status, replies), *root_differences(folder, replies)]

    def try_sweep(self, name, kind):
        """Tries the rounds of a script until no call is left, and prints its line."""
        if SWEEPS[name].before:
            run(self.work / name, text_of(SWEEPS[name].before))
        statuses, number = collections.Counter(), 0
        while number < MOST:
            number += 1
            status, differences = self.try_round(name, kind, number)
            if status is None:
                break
            statuses[status] += 1
            if differences:
                self.differ += 1
                print(f"{name}, {kind}, call {number}: {'; '.join(differences)}", flush=True)
        shutil.rmtree(self.work / name, ignore_errors=True)
        self.rounds += number - 1
        self.differ += number == MOST
        told = ", ".join(f"{statuses[status]} of status {status}" for status in sorted(statuses))
        print(f"{name}, {kind}: {number - 1} rounds; {told}", flush=True)


def main():
    kinds = [kind for word in sys.argv[1:] or ["usual"] for kind in {"usual": USUAL, "long": KINDS}.get(word, [word])]
    if not shutil.which("cc"):
        print("skipped: there is no cc on the path")
        return 2
    memory = "/dev/shm" if "TMPDIR" not in os.environ and os.path.isdir("/dev/shm") else None
    with tempfile.TemporaryDirectory(dir=memory) as place:
        sweeps = Sweeps(pathlib.Path(place))
        build = ["cc", "-O2", "-shared", "-fPIC", "-o", sweeps.library, HERE / "calls.c", "-ldl"]
        if subprocess.run(build, check=False).returncode:
            print("skipped: cc does not build calls.c, which is for glibc")
            return 2
        run(sweeps.work / "built", b"")  # builds the program, where needed
        for kind in kinds:
            for name in SWEEPS:
                sweeps.try_sweep(name, kind)
    print(f"{sweeps.rounds} rounds, {sweeps.differ} differ")
    return 1 if sweeps.differ or not sweeps.rounds else 0


if __name__ == "__main__":
    sys.exit(main())
