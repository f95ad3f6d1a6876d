#!/usr/bin/env python3
"""Kills the built program in the midst of INSERTs and merges of tables of each engine, and compares what the next run finds.

    tests/built/kill_merges.py [ROUNDS]

A round is in a new folder. The script makes a table of each engine and then, over and over, adds rows to each and merges it: by the policy,
and now and then to one part. The program is killed after a random part of the least time that the whole script took so far. The next run tells
how many commands are there: as many as were acknowledged, or one more. It asks each table with FINAL, merges it to one part and asks it again,
and what it prints is what tests/answers.py works out of the first commands, that many, whatever was merged before the kill: rows were added
whole or not at all, and no merge lost one or folded one twice. So that this is told apart from all else, signs alternate, and rows of one
version agree beside the sign.

Only the process is killed, and the system goes on. The seed of the random parts is printed; where SEED is set, it is the seed. Where MERGETREE
is set, it is the program that is run. Where in no round the program was killed before its end, nothing was tried, and the status is 1.
"""
import os
import random
import subprocess
import sys
import tempfile
import time

HERE = os.path.dirname(os.path.realpath(__file__))
sys.path.insert(0, os.path.join(HERE, ".."))
import answers  # noqa: E402

PROGRAM = os.environ.get("MERGETREE", os.path.join(HERE, "..", "..", "bin", "mergetree"))
TIMES = 40
POLICIES = ["near", "head", "tail"]
TABLES = {
    "m": "(k UInt8, n UInt32) ENGINE = MergeTree ORDER BY k",
    "r": "(k UInt8, ver UInt32, n UInt32) ENGINE = ReplacingMergeTree(ver) ORDER BY k",
    "s": "(k UInt8, n UInt8) ENGINE = SummingMergeTree ORDER BY k",
    "c": "(k UInt8, n UInt32, sign Int8) ENGINE = CollapsingMergeTree(sign) ORDER BY k",
    "v": "(k UInt8, n UInt32, sign Int8, ver UInt32) ENGINE = VersionedCollapsingMergeTree(sign, ver) ORDER BY k",
    "a": "(k UInt8, n SimpleAggregateFunction(sum, UInt64), f SimpleAggregateFunction(anyLast, UInt32)) ENGINE = AggregatingMergeTree ORDER BY k",
}


def row_of(table, turn, key):
    """The row of a key that a turn adds to a table."""
    state, sign = turn - turn % 2, 1 if turn % 2 == 0 else -1
    return {
        "m": (key, turn), "r": (key, turn % 7, turn), "s": (key, (37 * turn + key) % 256), "c": (key, state, sign),
        "v": (key, state, sign, state), "a": (key, turn, turn),
    }[table]  # fmt: skip


def commands():
    """The commands of the script, each with the merge that follows it."""
    for table, text in TABLES.items():
        yield f"CREATE TABLE {table} {text};\n", ""
    for turn in range(TIMES):
        for table in TABLES:
            rows = "".join("\t".join(map(str, row_of(table, turn, key))) + "\n" for key in range(4))
            whole = " FINAL" if turn % 9 == 8 else ""
            yield f"INSERT INTO {table};\n{rows}\\.\n", f"OPTIMIZE TABLE {table}{whole};\n"


def run(folder, script, policy):
    """The replies of the program to a script, which it is to answer without a refusal."""
    done = subprocess.run([PROGRAM, "--path", folder, "--policy", policy], input=script.encode(), stdout=subprocess.PIPE, timeout=120, check=False)
    return done.returncode, done.stdout


def killed(folder, script, policy, delay):
    """What the program wrote that was killed after some seconds, and how many it took, or none where it was running still."""
    with open(script, "rb") as source, tempfile.TemporaryFile() as out:
        begun = time.monotonic()
        program = subprocess.Popen([PROGRAM, "--path", folder, "--policy", policy], stdin=source, stdout=out)
        try:
            program.wait(timeout=delay)
            took = time.monotonic() - begun
        except subprocess.TimeoutExpired:
            took = None
            program.kill()
            program.wait()
        out.seek(0)
        return out.read(), took


def difference(folder, written, made, policy):
    """How the next run differs from what is wanted; nothing where it does not."""
    replies = written.decode().split("\n")[:-1]
    if any(not reply.startswith("OK ") for reply in replies):
        return f"a reply that is no OK: {replies[-1]}"
    told = int(replies[-1].split()[1]) if replies else 0
    status, found = run(folder, "OPTIMIZE TABLE m;", policy)
    first = found.decode().split()
    there = int(first[1]) if status == 0 else 0
    if not told <= there <= told + 1:
        return f"{there} commands where {told} were acknowledged, status {status}"
    tables = list(TABLES)[:there]
    ask = "".join(f"SELECT * FROM {table} FINAL;OPTIMIZE TABLE {table} FINAL;SELECT * FROM {table};" for table in tables)
    wanted = answers.Store()
    wanted.run("".join(command for command, _ in made[:there]).encode())
    status, found = run(folder, ask, policy)
    if (status, found) != wanted.run(ask.encode()):
        return f"other rows after {there} commands, status {status}: {found[:300]}"
    return ""


def main():
    rounds = int(sys.argv[1]) if sys.argv[1:] else 20
    seed = int(os.environ.get("SEED", random.randrange(1 << 32)))
    print(f"seed {seed}")
    draw, made, tried, failed = random.Random(seed), list(commands()), 0, 0
    with tempfile.TemporaryDirectory() as work:
        script = os.path.join(work, "script")
        with open(script, "w", encoding="ascii") as file:
            file.write("".join(command + merge for command, merge in made))
        run(os.path.join(work, "built"), "", "near")  # builds the program, where needed
        begun = time.monotonic()
        status, _ = run(os.path.join(work, "whole"), open(script, encoding="ascii").read(), "near")
        took = time.monotonic() - begun
        if status != 0:
            sys.exit(f"status {status} of the whole script")
        for number in range(rounds):
            folder, policy, delay = os.path.join(work, str(number)), POLICIES[number % 3], draw.random() * took
            written, ended = killed(folder, script, policy, delay)
            took = took if ended is None else min(took, ended)
            found = difference(folder, written, made, policy)
            print(f"{number + 1}: {policy}, {delay:.3f} s, {written.count(10)} answered: {found or 'ok'}")
            tried, failed = tried + (ended is None), failed + bool(found)
    print(f"{rounds} rounds, {tried} killed before the end, {failed} differ")
    sys.exit(0 if tried and not failed else 1)


if __name__ == "__main__":
    main()
