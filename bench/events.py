#!/usr/bin/env python3
"""Prints the script of the workload `events`: a CREATE, INSERTs, and a SELECT of all rows, if there is a last word SELECT.

The words are the number of INSERTs, the rows of each, and the number of partitions, 0 for a table without a partition column. A row is
a random UInt64 key, a UInt32, an Int64, a text of about 20 bytes and a UInt8. The UInt32 is random where there are no partitions, else
a random number below theirs. The generator is its own, so that each run has the same rows.
"""
import sys

inserts, rows, partitions = (int(word) for word in sys.argv[1:4])
seed = 88172645463325252
clause = "PARTITION BY a " if partitions else ""
out = [f"CREATE TABLE e (k UInt64, a UInt32, b Int64, s String, c UInt8) ENGINE = MergeTree {clause}ORDER BY k;"]
for _ in range(inserts):
    out.append("INSERT INTO e;")
    for row in range(rows):
        seed ^= seed << 13 & (1 << 64) - 1
        seed ^= seed >> 7
        seed ^= seed << 17 & (1 << 64) - 1
        number = (seed >> 32) % (partitions or 1 << 32)
        out.append(f"{seed}\t{number}\t{(seed >> 11) - (1 << 52)}\tevent {seed % 10**14:014d}\t{row % 256}")
    out.append("\\.")
if sys.argv[4:] == ["SELECT"]:
    out.append("SELECT * FROM e;")
print("\n".join(out))
