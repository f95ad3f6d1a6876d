#!/usr/bin/env bash
# Measures a SELECT of 5000 tests joined by AND over roots of 500, 1000 and 2000 parts of one row of `events` each. The word is the runs, 3 if
# it is left out. asked.py says what is printed; the time and the memory beyond those of opening are to grow in proportion to the parts. It
# asks for no speed.
set -euo pipefail
for parts in 500 1000 2000; do
    (source "$(dirname "$0")/asked.sh" ands "$parts" "$parts" "${1:-3}")
done
