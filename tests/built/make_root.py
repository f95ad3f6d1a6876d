#!/usr/bin/env python3
"""Makes tables and parts of a root from nothing, by docs/formats.md alone, in the folder that the one word names.

Standard input has lines
  create NAME TEXT            the table NAME with the entry of this text, which has no semicolon
  part NAME TYPES KEY ROWS..  the part of this name of the root: the types of its columns with commas between them, the columns of its
                              primary key, counted from 0, with commas between them, and its rows in the order of the key, with slashes
                              between them, each with commas between its fields; after the rows may stand its files of skip indexes,
                              in their order, each as its name, an equals sign and its bytes in hexadecimal digits
  granule ROWS                how many rows a granule of the parts after this line has; without such a line 8192
so `part t.part_all_1_1_0 UInt8,String 0 1,a/2,b` is a part of two rows, and with `s0.bin=0102` after them one with an index. A field has
no comma, slash or blank.
"""
import hashlib
import pathlib
import sys


def leb128(number):
    """The bytes of a number in groups of seven bits, the lowest first."""
    spelled = bytearray()
    while number >= 128:
        spelled.append(number % 128 + 128)
        number //= 128
    return bytes([*spelled, number])


def spelled(kind, field):
    """The bytes of a value of this type."""
    if kind == "String":
        return leb128(len(field.encode())) + field.encode()
    return int(field).to_bytes(int(kind.lstrip("UInt")) // 8, "little", signed=kind.startswith("I"))


def sealed(front):
    return front + hashlib.sha256(front).digest()


def little(number, size):
    return number.to_bytes(size, "little")


def marks_of(columns, granule):
    """The bytes of marks.bin, of columns that are lists of spelled values and granules of this many rows."""
    marks = b""
    for values in columns:
        starts = [sum(map(len, values[:row])) for row in [*range(0, len(values), granule), len(values)]]
        marks += b"".join(little(start, 8) for start in starts)
    return marks


def files_of(kinds, key, rows, indexes, granule):
    """The files of a part, by their names; those of skip indexes are given."""
    columns = [[spelled(kind, row[place]) for row in rows] for place, kind in enumerate(kinds)]
    marked = [*range(0, len(rows), granule), *([len(rows) - 1] if rows else [])]
    files = {"marks.bin": marks_of(columns, granule), "primary.bin": b"".join(columns[place][row] for row in marked for place in key)}
    files.update(indexes)
    files.update((f"c{number}.bin", b"".join(values)) for number, values in enumerate(columns))
    marks = b"".join(little(len(file), 8) + hashlib.sha256(file).digest() for file in files.values())
    files["manifest.bin"] = sealed(b"MTP1" + little(1, 2) + little(len(rows), 8) + little(len(files), 4) + marks)
    return files


def index_of(word):
    """The name and the bytes of a file of a skip index."""
    name, digits = word.split("=")
    return name, bytes.fromhex(digits)


def folder_of(line, granule):
    """The name and the files of what a line says."""
    kind, name, rest = line.split(maxsplit=2)
    if kind == "create":
        return f"{name}.create", {"entry.bin": sealed(b"MTS1" + little(len(rest.encode()), 4) + rest.encode())}
    kinds, key, rows, *indexes = rest.split()
    places = [int(place) for place in key.split(",")]
    return name, files_of(kinds.split(","), places, [row.split(",") for row in rows.split("/")], map(index_of, indexes), granule)


def main():
    granule = 8192  # rows
    for line in sys.stdin:
        if line.startswith("granule "):
            granule = int(line.split()[1])
            continue
        name, files = folder_of(line.rstrip("\n"), granule)
        folder = pathlib.Path(sys.argv[1]) / name
        folder.mkdir(parents=True)
        for file, content in files.items():
            (folder / file).write_bytes(content)


if __name__ == "__main__":
    main()
