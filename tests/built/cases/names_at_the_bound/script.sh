# Names of 64 bytes, and of one byte more: of a table, of a column and in a key.
n=$(printf 'n%.0s' $(seq 64))
c=$(printf 'c%.0s' $(seq 64))
echo "CREATE TABLE $n (a UInt8) ENGINE = MergeTree ORDER BY a;"
echo "CREATE TABLE ${n}n (a UInt8) ENGINE = MergeTree ORDER BY a;"
echo "CREATE TABLE t ($c UInt8) ENGINE = MergeTree ORDER BY $c;"
echo "CREATE TABLE u (${c}c UInt8) ENGINE = MergeTree ORDER BY a;"
echo "CREATE TABLE u (a UInt8) ENGINE = MergeTree ORDER BY ${c}c;"
echo "SELECT * FROM ${n}n;"
echo "SELECT ${c}c FROM t;"
