# The script of the example, whose replies stand in docs/definitions-of-runs.md, "Runs".
cat "$(dirname "$0")/../../../../examples/balances.sql"
