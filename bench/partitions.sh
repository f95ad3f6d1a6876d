#!/usr/bin/env bash
# Measures what partitions and parts cost. The workload `events` of N rows, the first word, 1000000 if it is left out, goes into 1, 100 and
# 10000 partitions of a table, as `events.sh` measures it (the last once, the others three times). Then K INSERTs of one row go into a
# table without a partition column, K being the second word, 3000 if it is left out: the CPU time of a tenth of them, the first and the
# last, each the least of three runs; it is to stay the same.
# A twin in plain Rust does the same, in turns with the program. All lies in temporary folders, which are removed: those of TMPDIR, or, where
# it is not set, of /dev/shm, since on a disk the syncs of the 80000 files of 10000 partitions take many minutes. It fails where the replies
# or the folders differ, and asks for no speed.
set -euo pipefail
if [ -d /dev/shm ]; then
    export TMPDIR=${TMPDIR:-/dev/shm}
fi
rows=${1:-1000000}
inserts=${2:-3000}
if [ "$inserts" -lt 10 ] || [ "$inserts" -gt 3000 ]; then
    echo "a table has at most 3000 parts, and a tenth of them is one at least" >&2
    exit 2
fi
root=$(cd "$(dirname "$0")/.." && pwd -P)
work=$(mktemp -d)
trap 'rm -rf "$work"' EXIT

"$root/bench/events.sh" "$rows" 1 3
"$root/bench/events.sh" "$rows" 100 3
"$root/bench/events.sh" "$rows" 10000 1

# Runs a program on the INSERTs over a new folder, and adds what it took to its figures.
measure() {
    local name=$1
    shift
    rm -rf "$work/d"
    python3 "$root/bench/replies_cpu.py" "$work/script" $((inserts + 1)) "$part" "$@" "$work/d" >>"$work/$name"
}

# Prints the least of the figures of a program, of the first replies and of the last.
print_least() {
    awk -v name="$1" -v part="$part" '
        NR == 1 || $1 < first { first = $1 }
        NR == 1 || $2 < last { last = $2 }
        END { printf "%s: the first %d in %.0f ms CPU, the last %d in %.0f ms\n", name, part, first, part, last }' "$work/$1"
}

part=$((inserts / 10))
python3 "$root/bench/events.py" "$inserts" 1 0 >"$work/script"
printf '%d INSERTs of one row\n' "$inserts"
if command -v rustc >/dev/null; then
    rustc --edition 2021 -O -o "$work/events_twin" "$root/bench/events_twin.rs"
fi
for _ in 1 2 3; do
    measure mergetree "$root/crates/mergetree/out/mergetree" --path
    if [ -x "$work/events_twin" ]; then
        measure twin "$work/events_twin"
    fi
done
print_least mergetree
if [ -x "$work/events_twin" ]; then
    print_least twin
fi
