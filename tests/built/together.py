#!/usr/bin/env python3
"""Starts two and three programs over one folder at nearly one time, kills some of them, and compares what they reply and what is found.

    tests/built/together.py [ROUNDS]

ROUNDS is 20 if it is left out; `long` is 400. A round is in a new folder, outside the repository: a first run makes a table for each program.
Then two or three programs are started after random moments, each with a script of INSERTs into its own table, of two rows each, in two
partitions, so that each INSERT is two commands; the table of every program is read by all. One of three is killed after a random moment.
Each begins anew where it was turned away, until it had the folder to itself or was killed. Wanted are
  of a program that was turned away    status 5, and nothing written
  of one that was not                  OK with rising numbers, two more each time, up to its end, with status 0, or up to the kill
  of all together                      no number of a command that two of them were given
  of the last run                      status 0, and in each table the rows of the INSERTs that were answered, and of one more the first
                                       partitions or none; as many commands as all of these and the tables
It prints its seed, and takes one from SEED. Where no program was turned away, nothing was tried, and the status is 1. Where MERGETREE is set,
it is the program that is run.
"""
import os
import pathlib
import random
import subprocess
import sys
import tempfile
import threading
import time

HERE = pathlib.Path(__file__).resolve().parent
PROGRAM = os.environ.get("MERGETREE", str(HERE / "../../bin/mergetree"))
INSERTS = 12
AT_MOST = 60  # seconds


def script_of(table):
    return "".join(f"INSERT INTO {table};\n2\t{row}\n1\t{row}\n\\.\n" for row in range(INSERTS)).encode()


def rows_after(commands):
    """The rows of a table after so many of its commands."""
    whole, begun = divmod(commands, 2)
    return [f"1\t{row}" for row in range(whole)] + [f"2\t{row}" for row in range(whole + begun)]


class Runner(threading.Thread):
    """A program that begins anew while it is turned away, and is killed after some seconds where they are given."""

    def __init__(self, folder, table, begins, killed):
        super().__init__()
        self.folder, self.table, self.begins, self.killed = folder, table, begins, killed
        self.turned_away, self.status, self.wrote, self.odd = 0, None, b"", ""

    def once(self):
        """Runs the program once, and gives whether it had the folder."""
        with tempfile.TemporaryFile() as source, tempfile.TemporaryFile() as out:
            source.write(script_of(self.table))
            source.seek(0)
            program = subprocess.Popen([PROGRAM, "--path", self.folder], stdin=source, stdout=out)
            try:
                self.status = program.wait(timeout=self.killed or AT_MOST)
            except subprocess.TimeoutExpired:
                program.kill()
                self.status = program.wait()
            out.seek(0)
            self.wrote = out.read()
        if self.status == 5 and self.wrote:
            self.odd = f"status 5 after {self.wrote[:60]}"
        return self.status != 5

    def run(self):
        time.sleep(self.begins)
        end = time.monotonic() + AT_MOST
        while time.monotonic() < end and not self.once():
            self.turned_away += 1
            time.sleep(0.002)


def numbers_of(runner):
    """The numbers after the OKs of a program's whole replies."""
    return [int(line.split()[1]) for line in runner.wrote.decode().split("\n")[:-1] if line.startswith("OK ")]


def reply_differences(runners):
    """How the replies of the programs differ from what is wanted."""
    given = {}
    for runner in runners:
        numbers = numbers_of(runner)
        if runner.odd or runner.status not in (0, -9):
            yield f"{runner.table}: {runner.odd or runner.status}"
        if runner.status == 0 and len(numbers) != INSERTS:
            yield f"{runner.table}: {len(numbers)} answered, status 0"
        if any(after - before != 2 for before, after in zip(numbers, numbers[1:])):
            yield f"{runner.table}: numbers {numbers}"
        for number in [command for number in numbers for command in (number - 1, number)]:
            if given.setdefault(number, runner.table) != runner.table:
                yield f"{number} was given to {given[number]} and {runner.table}"


def table_differences(folder, runners):
    """How the tables differ from the replies of the programs."""
    commands = len(runners)
    for runner in runners:
        done = subprocess.run([PROGRAM, "--path", folder], input=f"SELECT * FROM {runner.table};".encode(), stdout=subprocess.PIPE, timeout=AT_MOST, check=False)
        lines = done.stdout.decode().split("\n")[:-1]
        answered = 2 * len(numbers_of(runner))
        fits = [count for count in range(answered, answered + 3) if lines[1:] == rows_after(count)]
        if done.returncode or not fits or fits[0] > answered and runner.status == 0:
            yield f"{runner.table}: status {done.returncode}, {lines[:6]} after {answered} commands"
            return
        commands += fits[0]
    if lines[0].split()[3] != str(commands):
        yield f"{lines[0]} in place of {commands} commands"


def try_round(chance, folder):
    """Tries a round: the programs, and how they differ."""
    tables = [f"t{number}" for number in range(chance.choice([2, 3]))]
    create = "".join(f"CREATE TABLE {table} (p UInt8, a UInt16) ENGINE = MergeTree PARTITION BY p ORDER BY a;\n" for table in tables)
    subprocess.run([PROGRAM, "--path", folder], input=create.encode(), stdout=subprocess.DEVNULL, check=True)
    runners = [Runner(folder, table, chance.random() / 50, chance.choice([None, None, chance.random() / 5])) for table in tables]
    for runner in runners:
        runner.start()
    for runner in runners:
        runner.join()
    return runners, [*reply_differences(runners), *table_differences(folder, runners)]


def main():
    word = sys.argv[1] if sys.argv[1:] else "20"
    rounds = 400 if word == "long" else int(word)
    seed = int(os.environ.get("SEED") or random.randrange(1 << 32))
    print(f"seed {seed}")
    chance, turned_away, killed, differ = random.Random(seed), 0, 0, 0
    with tempfile.TemporaryDirectory() as place:
        subprocess.run([PROGRAM, "--path", f"{place}/built"], stdin=subprocess.DEVNULL, check=True)  # builds the program, where needed
        for number in range(rounds):
            runners, found = try_round(chance, f"{place}/d{number}")
            turned_away += sum(runner.turned_away for runner in runners)
            killed += sum(runner.status == -9 for runner in runners)
            differ += bool(found)
            for line in found:
                print(f"round {number}: {line}", flush=True)
    print(f"{rounds} rounds, {turned_away} times a program was turned away, {killed} killed, {differ} differ")
    return 1 if differ or not turned_away else 0


if __name__ == "__main__":
    sys.exit(main())
