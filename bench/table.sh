#!/usr/bin/env bash
# Prints the table of what merges of 8 parts of 125000 rows and of 3000 parts of one row take, and SELECTs by long lists and by 5000 tests
# joined by AND, with what is wanted of them beside, as RESULTS.md has it. The word is the runs, 3 if it is left out; with a word --small
# before it all roots are small, which tries the script itself. table.py says what is printed. It asks for no speed.
set -euo pipefail
small=()
if [ "${1:-}" = --small ]; then
    small=(--small)
    shift
fi
runs=${1:-3}
if [ "$runs" -lt 1 ]; then
    echo "there is a run at least" >&2
    exit 2
fi
root=$(cd "$(dirname "$0")/.." && pwd -P)
work=$(mktemp -d)
trap 'rm -rf "$work"' EXIT

"$root/bin/mergetree" --path "$work/built" </dev/null >/dev/null # builds the program, where needed
twin=()
if command -v rustc >/dev/null; then
    rustc --edition 2021 -O -o "$work/events_twin" "$root/bench/events_twin.rs"
    twin=(-- "$work/events_twin")
else
    echo 'twin: not measured, since there is no rustc'
fi
uname -sr
printf '%s processors, load %s\n\n' "$(nproc)" "$(cut -d ' ' -f 1-3 /proc/loadavg)"
python3 "$root/bench/table.py" "${small[@]}" "$runs" "$root/crates/mergetree/out/mergetree" --path "${twin[@]}"
