#!/usr/bin/env bash
# Measures 100 SELECTs of a thousandth of the rows each, by their keys, in one script, over a root of `events`. The words are the rows, the
# INSERTs that they go into and the runs, 1000000, 1 and 5 if they are left out. asked.py says what is printed. It asks for no speed.
set -euo pipefail
source "$(dirname "$0")/asked.sh" ranges "${1:-1000000}" "${2:-1}" "${3:-5}"
