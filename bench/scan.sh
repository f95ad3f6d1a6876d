#!/usr/bin/env bash
# Measures SELECTs that ask a column that is not sorted, so that each granule of it is read: ten for the rows of `events` whose number is
# in a hundredth of its range, and two for those in a half of it. The words are the rows, the INSERTs that they go into and the runs,
# 1000000, 1 and 5 if they are left out. asked.py says what is printed. It asks for no speed.
set -euo pipefail
source "$(dirname "$0")/asked.sh" scan "${1:-1000000}" "${2:-1}" "${3:-5}"
