#!/usr/bin/env python3
"""Asks the built program random conditions over random tables, and compares its replies with those that `tests/answers.py` works out.

The one word is the number of rounds, 20 if it is left out. A round is in a new folder, outside the repository: a first run makes two tables
of the same rows, of which one has a random key, primary key, partition column and size of granules, random skip indexes, and the engine
MergeTree or ReplacingMergeTree, and the other none of these; it inserts in one to three INSERTs, and merges parts of the first table between
them or not. A second run over the folder has 60 SELECTs with a condition over each table, some of them with FINAL, and an EXPLAIN of each. So
a round shows rows that are found and folded however the table is parted, and numbers of granules. It prints its seed, and takes one from SEED;
where a round differs it prints the script that shows it, and the status is 1. Where MERGETREE is set, it is the program that is run.
"""
import os
import pathlib
import random
import subprocess
import sys
import tempfile

HERE = pathlib.Path(__file__).resolve().parent
PROGRAM = os.environ.get("MERGETREE", str(HERE / "../../bin/mergetree"))
sys.path.insert(0, str(HERE.parent))
sys.dont_write_bytecode = True
from answers import Store  # pylint: disable=wrong-import-position

COLUMNS = "i UInt32, p UInt8, k UInt64, v Int16, s String"
TEXTS = ["", "a", "b", "ab", "A", "\\xff", "\\0", "it\\'s", "a\\\\"]
KEYS = ["k", "k, v", "s, k", "p, k, s", "v", "v, s", "s, v, k, p"]
ENGINES = ["MergeTree", "ReplacingMergeTree", "ReplacingMergeTree(p)"]
SIGNS = ["=", "!=", "<>", "<", "<=", ">", ">="]


def literal(chance, column):
    """A literal of a column: now and then one of no row."""
    if column == "s":
        return "'" + chance.choice(TEXTS + ["zz"]) + "'"
    number = chance.randint(-4, 4) if column == "v" else chance.randint(0, 7)
    return str(number) if number < 0 else chance.choice(["", "+", "00"]) + str(number)


def term(chance, depth):
    """A test, or a NOT or a parenthesis with something in it, at most as deep."""
    kind = chance.random()
    if depth and kind < 0.2:
        return "NOT " + term(chance, depth - 1)
    if depth and kind < 0.4:
        return "(" + condition(chance, depth - 1) + ")"
    column = chance.choice("pkvs")
    if chance.random() < 0.3:
        return f"{column} IN ({', '.join(literal(chance, column) for _ in range(chance.randint(1, 9)))})"
    return f"{column} {chance.choice(SIGNS)} {literal(chance, column)}"


def condition(chance, depth):
    """Terms, joined by AND and OR."""
    terms = [term(chance, depth)]
    for _ in range(chance.choice([0, 0, 1, 2, 3])):
        terms += [chance.choice(["AND", "OR"]), term(chance, depth)]
    return " ".join(terms)


def elements(chance):
    """The columns, with up to three skip indexes among them."""
    listed = COLUMNS.split(", ")
    for number in range(chance.choice([0, 1, 2, 3])):
        kind = chance.choice(["minmax", f"set({chance.randint(0, 4)})"])
        index = f"INDEX x{number} {chance.choice('pkvs')} TYPE {kind} GRANULARITY {chance.randint(1, 3)}"
        listed.insert(chance.randint(0, len(listed)), index)
    return ", ".join(listed)


def tables(chance):
    """A script that makes the two tables, and inserts the same rows into both."""
    key = chance.choice(KEYS)
    columns = key.split(", ")
    parting = chance.choice(["", " PARTITION BY p", " PARTITION BY k"])
    primary = chance.choice(["", f" PRIMARY KEY ({', '.join(columns[:chance.randint(1, len(columns))])})"])
    create = f"CREATE TABLE t ({elements(chance)}) ENGINE = {chance.choice(ENGINES)}{parting} ORDER BY ({key}){primary}"
    script = f"{create} SETTINGS index_granularity = {chance.randint(1, 5)};\nCREATE TABLE u ({COLUMNS}) ENGINE = MergeTree ORDER BY i;\n"
    row = 0
    for _ in range(chance.randint(1, 3)):
        lines = []
        for _ in range(chance.randint(1, 30)):
            row += 1
            lines.append(f"{row}\t{chance.randint(0, 3)}\t{chance.randint(0, 6)}\t{chance.randint(-3, 3)}\t{chance.choice(TEXTS)}\n")
        script += "".join(f"INSERT INTO {table};\n{''.join(lines)}\\.\n" for table in "tu")
        script += chance.choice(["", "", "OPTIMIZE TABLE t;\n", "OPTIMIZE TABLE t FINAL;\n"])
    return script


def questions(chance):
    """A script that asks conditions of both tables."""
    script = ""
    for _ in range(60):
        asked = condition(chance, 3)
        columns, final = chance.choice(["i", "*", "s, v", "k, k, p"]), chance.choice(["", " FINAL"])
        script += "".join(f"{verb} FROM {table}{final} WHERE {asked};\n" for table in "tu" for verb in (f"SELECT {columns}", "EXPLAIN SELECT i"))
    return script


def differences(chance, folder):
    """The scripts of a round whose replies differ, with the replies."""
    store = Store()
    for script in (tables(chance), questions(chance)):
        wanted = store.run(script.encode())
        words = [PROGRAM, "--path", folder]
        done = subprocess.run(words, input=script.encode(), stdout=subprocess.PIPE, timeout=600, check=False)
        if (done.returncode, done.stdout) != wanted:
            lines = zip(wanted[1].split(b"\n"), done.stdout.split(b"\n"))
            first = next((pair for pair in lines if pair[0] != pair[1]), "none of the lines that both have")
            yield f"{script}status {done.returncode} in place of {wanted[0]}; wanted and printed: {first}"


def main():
    rounds = int(sys.argv[1]) if sys.argv[1:] else 20
    seed = int(os.environ.get("SEED") or random.randrange(1 << 32))
    print(f"seed {seed}")
    chance = random.Random(seed)
    with tempfile.TemporaryDirectory() as place:
        subprocess.run([PROGRAM, "--path", f"{place}/built"], stdin=subprocess.DEVNULL, check=True)  # builds the program, where needed
        for number in range(rounds):
            for difference in differences(chance, f"{place}/d{number}"):
                print(f"round {number}:\n{difference}")
                return 1
    print(f"{rounds} rounds, none differs")
    return 0


if __name__ == "__main__":
    sys.exit(main())
