# What the benches of SELECTs with conditions have in common. Sourced with the kind of conditions, the rows, the INSERTs and the runs: it
# builds the program and the twin where that is needed, and runs asked.py, which says what is measured and printed.
kind=$1 rows=$2 inserts=$3 runs=$4
most=1048576 # the rows that an INSERT may have
if [ "$inserts" -lt 1 ] || [ "$inserts" -gt 3000 ] || [ "$rows" -lt "$inserts" ] || [ $((rows / inserts)) -gt "$most" ] || [ "$runs" -lt 1 ]; then
    echo "there are from 1 to 3000 INSERTs, an INSERT has from 1 to $most rows, and there is a run at least" >&2
    exit 2
fi
root=$(cd "$(dirname "$0")/.." && pwd -P)
work=$(mktemp -d)
trap 'rm -rf "$work"' EXIT

"$root/bin/mergetree" --path "$work/built" </dev/null >/dev/null # builds the program, where needed
twin=()
if command -v rustc >/dev/null; then
    rustc --edition 2021 -O -o "$work/events_twin" "$root/bench/events_twin.rs"
    twin=(-- "$work/events_twin")
else
    echo 'twin: not measured, since there is no rustc'
fi
python3 "$root/bench/asked.py" "$kind" "$rows" "$inserts" "$runs" "$root/crates/mergetree/out/mergetree" --path "${twin[@]}"
