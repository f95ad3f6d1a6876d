#!/usr/bin/env bash
# Measures the program and a twin in plain Rust on the workload `events`: one CREATE, one INSERT of N rows and one SELECT of all of them,
# over a folder that is not there before. N is the first word, 1000000 if it is left out. The second word is the number of partitions of the
# rows, 0 if it is left out: a table without a partition column. The third is the number of runs, 3 if it is left out; the program and the
# twin take turns.
# It prints CPU time (user and system), elapsed time and peak memory of both, the INSERT alone and with the SELECT, of each the run with the
# least user time, and the twin's steps. It fails where the replies or the folders differ, and asks for no speed.
set -euo pipefail
rows=${1:-1000000}
partitions=${2:-0}
runs=${3:-3}
most=1048576 # the rows that an INSERT may have
if [ "$rows" -lt 1 ] || [ "$rows" -gt "$most" ] || [ "$partitions" -lt 0 ] || [ "$runs" -lt 1 ]; then
    echo "an INSERT has from 1 to $most rows, partitions are 0 or more, and there is a run at least" >&2
    exit 2
fi
root=$(cd "$(dirname "$0")/.." && pwd -P)
work=$(mktemp -d)
trap 'rm -rf "$work"' EXIT

python3 "$root/bench/events.py" 1 "$rows" "$partitions" >"$work/insert"
{ cat "$work/insert"; echo 'SELECT * FROM e;'; } >"$work/script"

# Runs a program on a script by GNU time over a new folder, for twenty minutes at most, and adds what it took to its figures.
measure() {
    local name=$1 script=$2
    shift 2
    rm -rf "$work/$name"
    if ! env time -f '%U %S %e %M' -o "$work/time" timeout 1200 "$@" "$work/$name" <"$work/$script" >"$work/$name.out"; then
        echo "$name did not end with status 0, or there is no GNU time" >&2
        exit 1
    fi
    tail -n 1 "$work/time" >>"$work/$name.$script"
}

# Prints of the runs of a program on a script the one with the least user time.
print_least() {
    sort -n "$work/$1.$2" | awk -v name="$1, $2" 'NR == 1 { printf "%s: %s + %s s CPU, %s s, %s KiB\n", name, $1, $2, $3, $4 }'
}

"$root/bin/mergetree" --path "$work/built" </dev/null >/dev/null # builds the program, where needed
programs=(mergetree)
if command -v rustc >/dev/null; then
    rustc --edition 2021 -O -o "$work/events_twin" "$root/bench/events_twin.rs"
    programs+=(twin)
else
    echo 'twin: not measured, since there is no rustc'
fi
printf '%d rows, %d partitions, %d bytes\n' "$rows" "$partitions" "$(wc -c <"$work/script")"
for script in insert script; do
    for _ in $(seq "$runs"); do
        measure mergetree "$script" "$root/crates/mergetree/out/mergetree" --path
        if [ "${#programs[@]}" -gt 1 ]; then
            measure twin "$script" "$work/events_twin"
        fi
    done
    for program in "${programs[@]}"; do
        print_least "$program" "$script"
    done
done
if [ "${#programs[@]}" -gt 1 ]; then
    cmp "$work/mergetree.out" "$work/twin.out"
    rm "$work/mergetree/.lock"
    diff -r "$work/mergetree" "$work/twin"
    rm -rf "$work/mergetree" "$work/twin"
    "$work/events_twin" "$work/twin" --times <"$work/script" >/dev/null
fi
