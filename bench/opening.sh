#!/usr/bin/env bash
# Measures opening: a root of one table with PARTS parts of ROWS rows of the workload `events` each, the first two words, 100 and 1000 if
# they are left out. The program runs an empty script over it five times, with the files in the system's cache, and the run of the least CPU
# time is printed. Where `perf` is there, the share of the digests in that time is printed too. A twin in plain Rust only reads each file and
# digests it. It fails where the root is not opened, and asks for no speed.
set -euo pipefail
parts=${1:-100}
rows=${2:-1000}
if [ "$parts" -lt 1 ] || [ "$parts" -gt 3000 ] || [ "$rows" -lt 1 ] || [ "$rows" -gt 1048576 ]; then
    echo "a table has from 1 to 3000 parts, an INSERT from 1 to 1048576 rows" >&2
    exit 2
fi
root=$(cd "$(dirname "$0")/.." && pwd -P)
work=$(mktemp -d)
trap 'rm -rf "$work"' EXIT

python3 "$root/bench/events.py" "$parts" "$rows" 0 >"$work/script"
"$root/bin/mergetree" --path "$work/built" </dev/null >/dev/null # builds the program, where needed
program=$root/crates/mergetree/out/mergetree
timeout 1800 "$program" --path "$work/d" <"$work/script" >/dev/null
printf '%d parts of %d rows, %d bytes\n' "$parts" "$rows" "$(find "$work/d" -type f -printf '%s\n' | awk '{ sum += $1 } END { print sum }')"

for _ in 1 2 3 4 5; do
    env time -f '%U %S %e %M' -o "$work/figures" timeout 600 "$program" --path "$work/d" </dev/null
    tail -n 1 "$work/figures" >>"$work/openings"
done
awk '{ print $1 + $2, $3, $4 }' "$work/openings" | sort -n | awk 'NR == 1 { printf "mergetree: %s s CPU, %s s, %s KiB\n", $1, $2, $3 }'
if command -v perf >/dev/null && perf record -q -F 5000 -o "$work/perf" "$program" --path "$work/d" </dev/null 2>/dev/null; then
    perf report -i "$work/perf" --stdio --sort symbol 2>/dev/null | awk '/^ +[0-9.]+%/ { share = $1 + 0; if (tolower($0) ~ /sha2|sha256/) sum += share } END { printf "mergetree: digests are %.0f %% of the CPU time\n", sum }'
fi
if command -v rustc >/dev/null; then
    rustc --edition 2021 -O -o "$work/twin" "$root/bench/opening_twin.rs"
    printf 'twin: %s\n' "$("$work/twin" "$work/d")"
else
    echo 'twin: not measured, since there is no rustc'
fi
