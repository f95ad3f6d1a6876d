#!/usr/bin/env bash
# Measures SELECTs that ask by IN whether a column that is not sorted has one of 100, of 1000 and of 5000 numbers, over a root of `events`.
# The words are the rows, the INSERTs that they go into and the runs, 1000000, 1 and 5 if they are left out. asked.py says what is printed.
# It asks for no speed.
set -euo pipefail
source "$(dirname "$0")/asked.sh" lists "${1:-1000000}" "${2:-1}" "${3:-5}"
