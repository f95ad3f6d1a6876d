#!/usr/bin/env bash
# Measures 100 SELECTs of one key each in one script, over a root of `events`. The words are the rows, the INSERTs that they go into and the
# runs, 1000000, 1 and 5 if they are left out. asked.py says what is printed. It asks for no speed.
set -euo pipefail
source "$(dirname "$0")/asked.sh" points "${1:-1000000}" "${2:-1}" "${3:-5}"
