#!/usr/bin/env bash
# Measures merges of sorted rows by each engine's rule, beside a plain Rust twin in the same form. The words are the rows and the runs,
# 1000000 and 3 if they are left out. merges.py says what is printed. It asks for no speed.
set -euo pipefail
rows=${1:-1000000} runs=${2:-3}
root=$(cd "$(dirname "$0")/.." && pwd -P)
work=$(mktemp -d)
trap 'rm -rf "$work"' EXIT

(cd "$root/crates/time_merges" && rt run </dev/null >/dev/null) # builds the program, where needed
rustc --edition 2021 -O -o "$work/merges_twin" "$root/bench/merges_twin.rs"
python3 "$root/bench/merges.py" "$rows" "$runs" "$root/crates/time_merges/out/time_merges" "$work/merges_twin"
