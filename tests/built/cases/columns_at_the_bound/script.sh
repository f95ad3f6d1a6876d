# A table of 65 columns, and one of 64, which takes a row.
columns() { for i in $(seq 0 "$1"); do printf 'c%d UInt8%s' "$i" "$([ "$i" -lt "$1" ] && echo ', ')"; done; }
echo "CREATE TABLE t ($(columns 64)) ENGINE = MergeTree ORDER BY c0;"
echo "CREATE TABLE t ($(columns 63)) ENGINE = MergeTree ORDER BY c0;"
echo 'INSERT INTO t;'
seq -s "$(printf '\t')" 1 64
echo '\.'
echo 'SELECT c63, c0 FROM t;'
