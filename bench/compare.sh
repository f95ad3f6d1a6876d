#!/usr/bin/env bash
# Measures the program and a twin in plain Rust on one script: one CREATE, INSERTs, and one SELECT of all rows. The program writes them
# to a new folder and reads them back, the twin keeps them in memory.
# The first word is the number of rows, 100000 if it is left out; the second the rows of each INSERT, all if it is left out.
# It prints time and peak memory of both, fails where the replies differ, and asks for no speed.
set -euo pipefail
rows=${1:-100000}
each=${2:-$rows}
most=1048576 # the rows that an INSERT may have
if [ "$each" -lt 1 ] || [ "$each" -gt "$most" ]; then
    echo "an INSERT has from 1 to $most rows" >&2
    exit 2
fi
root=$(cd "$(dirname "$0")/.." && pwd -P)
work=$(mktemp -d)
trap 'rm -rf "$work"' EXIT

awk -v rows="$rows" -v each="$each" 'BEGIN {
    print "CREATE TABLE t (a UInt8, s String) ENGINE = MergeTree ORDER BY a;"
    for (i = 0; i < rows; i++) {
        if (i % each == 0) print "INSERT INTO t;"
        seed = (seed * 1109 + 12345) % 1048576
        printf "%d\trow %d\n", seed % 256, seed
        if (i % each == each - 1 || i == rows - 1) print "\\."
    }
    print "SELECT * FROM t;"
}' >"$work/script"

# Runs a program on the script by GNU time, for ten minutes at most, and prints how long it took and the most memory that it held.
measure() {
    local name=$1
    shift
    if ! env time -f '%e s, %M KiB' -o "$work/figures" timeout 600 "$@" <"$work/script" >"$work/$name.out"; then
        echo "$name did not end with status 0, or there is no GNU time" >&2
        exit 1
    fi
    printf '%s: %s\n' "$name" "$(cat "$work/figures")"
}

"$root/bin/mergetree" --path "$work/built" </dev/null >/dev/null # builds the program, where needed
printf '%d rows, %d an INSERT, %d bytes\n' "$rows" "$each" "$(wc -c <"$work/script")"
measure mergetree "$root/crates/mergetree/out/mergetree" --path "$work/d"
if command -v rustc >/dev/null; then
    rustc --edition 2021 -O -o "$work/twin" "$root/bench/twin.rs"
    measure twin "$work/twin"
    cmp "$work/mergetree.out" "$work/twin.out"
else
    echo 'twin: not measured, since there is no rustc'
fi
