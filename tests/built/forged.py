#!/usr/bin/env python3
"""Forges parts whose digests fit, and compares what opening says of them with what docs/formats.md says.

    tests/built/forged.py [ROUNDS]

ROUNDS is 200 if it is left out; `long` is 5000. A round makes the files of a part of random rows by docs/formats.md, changes one or two of
them (a byte, some bytes more or fewer, a file of other rows, another number of rows in the manifest), and gives the manifest the sizes and the
digests of what came of it. Which file of the part is the first damaged one, or that none is, and its rows then, is worked out here from the
page alone. The program opens the part, and is to print that file with status 7, or the rows with status 0. It prints its seed, and takes one
from SEED; for each round that differs it prints the files. Where MERGETREE is set, it is the program that is run.
"""
import collections
import os
import pathlib
import random
import subprocess
import sys
import tempfile

HERE = pathlib.Path(__file__).resolve().parent
PROGRAM = os.environ.get("MERGETREE", str(HERE / "../../bin/mergetree"))
sys.path.insert(0, str(HERE))
sys.dont_write_bytecode = True
from make_root import leb128, little, sealed  # pylint: disable=wrong-import-position

WIDTHS = {"UInt8": 1, "UInt16": 2, "Int8": 1, "Int32": 4, "UInt64": 8, "String": None}
# The table: its columns' types, the places of its key and of its primary key, its granularity, and its indexes: the place of a column, the
# number of a set or nothing of a minmax, and the granularity.
Table = collections.namedtuple("Table", "kinds key primary granule indexes")


class Malformed(Exception):
    """Bytes that are no such file."""


def spelled(kind, value):
    if kind == "String":
        return leb128(len(value)) + value
    return value.to_bytes(WIDTHS[kind], "little", signed=kind.startswith("I"))


class Bytes:
    """Bytes that are read from the left."""

    def __init__(self, content):
        self.content, self.at = content, 0

    def take(self, count):
        if self.at + count > len(self.content):
            raise Malformed
        self.at += count
        return self.content[self.at - count : self.at]

    def number(self, size):
        return int.from_bytes(self.take(size), "little")

    def length(self):
        """A length in LEB128, in its shortest form and below 2^64."""
        number = 0
        for place in range(10):
            byte = self.number(1)
            number += (byte % 128) << (7 * place)
            if byte < 128:
                if byte == 0 and place or number >= 1 << 64:
                    raise Malformed
                return number
        raise Malformed

    def value(self, kind):
        if kind == "String":
            return self.take(self.length())
        return int.from_bytes(self.take(WIDTHS[kind]), "little", signed=kind.startswith("I"))

    def end(self):
        if self.at != len(self.content):
            raise Malformed


def blocks(table, index, count):
    """How many rows each block of an index has."""
    size = table.granule * index[2]
    while count > 0:
        yield min(size, count)
        count -= size


def most_values(kind):
    return 1 << 64 if kind == "String" else 1 << (8 * WIDTHS[kind])


def marks_of(table, rows):
    marks = b""
    for place, kind in enumerate(table.kinds):
        sizes = [len(spelled(kind, row[place])) for row in rows]
        starts = [sum(sizes[:row]) for row in [*range(0, len(rows), table.granule), len(rows)]]
        marks += b"".join(little(start, 8) for start in starts)
    return marks


def primary_of(table, rows):
    marked = [*rows[:: table.granule], *rows[-1:]]
    return b"".join(spelled(table.kinds[place], row[place]) for row in marked for place in table.primary)


def index_of(table, index, rows):
    place, most, _ = index
    kind, content, start = table.kinds[place], b"", 0
    for count in blocks(table, index, len(rows)):
        values = [row[place] for row in rows[start : start + count]]
        start += count
        if most is None:
            content += spelled(kind, min(values)) + spelled(kind, max(values))
            continue
        kept = list(dict.fromkeys(values))
        kept = kept if len(kept) <= (most or (1 << 32) - 1) else []
        content += little(len(kept), 4) + b"".join(spelled(kind, value) for value in kept)
    return content


def files_of(table, rows):
    """The files of a part of these rows, but the manifest, in the order of the format."""
    files = {"marks.bin": marks_of(table, rows), "primary.bin": primary_of(table, rows)}
    files.update((f"s{number}.bin", index_of(table, index, rows)) for number, index in enumerate(table.indexes))
    files.update((f"c{place}.bin", b"".join(spelled(kind, row[place]) for row in rows)) for place, kind in enumerate(table.kinds))
    return files


def manifest_of(files, count):
    digest = lambda content: sealed(content)[len(content) :]
    marks = b"".join(little(len(content), 8) + digest(content) for content in files.values())
    return sealed(b"MTP1" + little(1, 2) + little(count, 8) + little(len(files), 4) + marks)


def read_marks(table, content, count):
    read, granules = Bytes(content), -(-count // table.granule)
    for _ in table.kinds:
        last = read.number(8)
        if last:
            raise Malformed
        for _ in range(granules):
            start = read.number(8)
            if start <= last:
                raise Malformed
            last = start
    read.end()


def read_primary(table, content, count):
    read, keys = Bytes(content), []
    if count:
        for _ in range(-(-count // table.granule) + 1):
            keys = [*keys[-1:], [read.value(table.kinds[place]) for place in table.primary]]
        if (count - 1) % table.granule == 0 and keys[0] != keys[1]:
            raise Malformed
    read.end()


def read_index(table, index, content, count):
    place, most, _ = index
    read, kind = Bytes(content), table.kinds[place]
    for rows in blocks(table, index, count):
        if most is None:
            least, greatest = read.value(kind), read.value(kind)
            if greatest < least or rows == 1 and least != greatest:
                raise Malformed
            continue
        bound, number = most or (1 << 32) - 1, read.number(4)
        if number > min(bound, rows, most_values(kind)) or not number and not (rows > bound and most_values(kind) > bound):
            raise Malformed
        values = [read.value(kind) for _ in range(number)]
        if len(set(values)) < number:
            raise Malformed
    read.end()


def column_of(kind, content, count):
    """The values of a column's file, as many as the part has rows."""
    read = Bytes(content)
    values = [read.value(kind) for _ in range(count)]
    read.end()
    return values


def judged(table, files, count):
    """The first damaged file of a part whose digests fit, and its rows where none is."""
    readers = [("marks.bin", read_marks), ("primary.bin", read_primary)]
    readers += [(f"s{number}.bin", lambda table, content, count, index=index: read_index(table, index, content, count)) for number, index in enumerate(table.indexes)]
    columns = []
    for name, read in [*readers, *((f"c{place}.bin", kind) for place, kind in enumerate(table.kinds))]:
        try:
            if callable(read):
                read(table, files[name], count)
            else:
                columns.append(column_of(read, files[name], count))
        except Malformed:
            return name, []
    rows = list(zip(*columns))
    sound = files_of(table, rows)
    return next((name for name, _ in readers if sound[name] != files[name]), None), rows


def drawn_value(chance, kind):
    if kind == "String":
        return bytes(chance.choice(b"ab") for _ in range(chance.choice([0, 1, 2, 130])))
    return chance.randint(0, 3) if chance.random() < 0.9 else most_values(kind) // 2 - 1


def drawn_rows(chance, table, count):
    rows = [tuple(drawn_value(chance, kind) for kind in table.kinds) for _ in range(count)]
    return sorted(rows, key=lambda row: [row[place] for place in table.key])


def drawn_table(chance):
    kinds = [chance.choice(list(WIDTHS)) for _ in range(chance.randint(1, 3))]
    key = chance.sample(range(len(kinds)), chance.randint(1, len(kinds)))
    indexes = [(chance.randrange(len(kinds)), chance.choice([None, 0, 1, 2]), chance.randint(1, 2)) for _ in range(chance.choice([0, 1, 1, 2]))]
    return Table(kinds, key, key[: chance.randint(1, len(key))], chance.randint(1, 3), indexes)


def create_of(table):
    columns = [f"c{place} {kind}" for place, kind in enumerate(table.kinds)]
    for number, (place, most, granule) in enumerate(table.indexes):
        columns.append(f"INDEX i{number} c{place} TYPE {'minmax' if most is None else f'set({most})'} GRANULARITY {granule}")
    names = lambda places: "(" + ", ".join(f"c{place}" for place in places) + ")"
    return f"CREATE TABLE t ({', '.join(columns)}) ENGINE = MergeTree ORDER BY {names(table.key)} PRIMARY KEY {names(table.primary)} SETTINGS index_granularity = {table.granule}"


def forged(chance, content, other):
    """The bytes of a file, changed; those of the same file of other rows in one of six."""
    way, place = chance.randrange(6), chance.randint(0, len(content))
    if way == 0:
        return other
    if way == 1:
        return content[:place]
    if way == 2:
        return content + bytes(chance.randrange(256) for _ in range(chance.choice([1, 8])))
    if way == 3:
        return content[:place] + content[place + chance.choice([1, 4, 8]) :]
    if way == 4:
        return content[:place] + bytes([chance.randrange(256)]) + content[place:]
    return content[:place] + bytes([chance.choice([0, 1, 2, 128, 255])]) + content[place + 1 :]


def escaped(field):
    return field if isinstance(field, bytes) else str(field).encode()


def wanted_of(table, files, count):
    """What the program is to print, and its status."""
    damaged, rows = judged(table, files, count)
    if damaged:
        return f"DAMAGED file t.part_all_1_1_0 {damaged}\n".encode(), 7
    lines = sorted(rows)
    printable = all(32 < byte < 127 and byte not in b"'\\" for row in rows for field in row if isinstance(field, bytes) for byte in field)
    text = b"".join(b"\t".join(map(escaped, row)) + b"\n" for row in lines)
    return (b"ROWS %d PREFIX 2\n" % len(rows) + text if printable else None), 0


def try_round(chance, folder):
    """A round: whether a file was damaged, and how it differs."""
    table = drawn_table(chance)
    rows, other = (drawn_rows(chance, table, chance.randint(0, 7)) for _ in range(2))
    files, others, count = files_of(table, rows), files_of(table, other), len(rows)
    for name in chance.sample(list(files), min(len(files), chance.choice([0, 1, 1, 1, 2]))):
        files[name] = forged(chance, files[name], others[name])
    if chance.random() < 0.2:
        count = chance.choice([0, count + 1, max(count - 1, 0), 1 << 40, (1 << 64) - 1])
    text = create_of(table).encode()
    entry = {"entry.bin": sealed(b"MTS1" + little(len(text), 4) + text)}
    for name, content in (("t.create", entry), ("t.part_all_1_1_0", {**files, "manifest.bin": manifest_of(files, count)})):
        (folder / name).mkdir(parents=True)
        for file, part in content.items():
            (folder / name / file).write_bytes(part)
    wanted, status = wanted_of(table, files, count)
    done = subprocess.run([PROGRAM, "--path", str(folder)], input=b"SELECT * FROM t;", stdout=subprocess.PIPE, timeout=60, check=False)
    if done.returncode == status and wanted in (None, done.stdout):
        return status == 7, ""
    return status == 7, f"{text.decode()}, {count} rows, {files}: status {done.returncode} in place of {status}, {done.stdout[:200]} in place of {wanted}"


def main():
    word = sys.argv[1] if sys.argv[1:] else "200"
    rounds = 5000 if word == "long" else int(word)
    seed = int(os.environ.get("SEED") or random.randrange(1 << 32))
    print(f"seed {seed}")
    chance, damaged, differ = random.Random(seed), 0, 0
    with tempfile.TemporaryDirectory() as place:
        subprocess.run([PROGRAM, "--path", f"{place}/built"], stdin=subprocess.DEVNULL, check=True)  # builds the program, where needed
        for number in range(rounds):
            is_damaged, found = try_round(chance, pathlib.Path(place) / f"d{number}")
            damaged += is_damaged
            differ += bool(found)
            if found:
                print(f"round {number}: {found}", flush=True)
    print(f"{rounds} rounds, {damaged} with a damaged file, {differ} differ")
    return 1 if differ or not 0 < damaged < rounds else 0


if __name__ == "__main__":
    sys.exit(main())
