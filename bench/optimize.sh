#!/usr/bin/env bash
# Measures OPTIMIZE .. FINAL of the workload `events`: parts of many rows that become one part, of an engine that keeps all rows and of one
# that keeps the last of each key. The words are the parts, the rows of each and the runs, 8, 125000 and 3 if they are left out.
# optimize.py says what is measured and printed. It asks for no speed.
set -euo pipefail
parts=${1:-8}
rows=${2:-125000}
runs=${3:-3}
most=1048576 # the rows that an INSERT may have
if [ "$parts" -lt 1 ] || [ "$parts" -gt 3000 ] || [ "$rows" -lt 1 ] || [ "$rows" -gt "$most" ] || [ "$runs" -lt 1 ]; then
    echo "there are from 1 to 3000 parts, a part has from 1 to $most rows, and there is a run at least" >&2
    exit 2
fi
root=$(cd "$(dirname "$0")/.." && pwd -P)
work=$(mktemp -d)
trap 'rm -rf "$work"' EXIT

"$root/bin/mergetree" --path "$work/built" </dev/null >/dev/null # builds the program, where needed
twin=()
if command -v rustc >/dev/null; then
    rustc --edition 2021 -O -o "$work/events_twin" "$root/bench/events_twin.rs"
    twin=(-- "$work/events_twin")
else
    echo 'twin: not measured, since there is no rustc'
fi
python3 "$root/bench/optimize.py" "$parts" "$rows" "$runs" "$root/crates/mergetree/out/mergetree" --path "${twin[@]}"
