# One table more than there may be, and one that is there.
for i in $(seq 1 65); do
    echo "CREATE TABLE t$i (a UInt8) ENGINE = MergeTree ORDER BY a;"
done
echo 'CREATE TABLE t64 (a UInt8) ENGINE = MergeTree ORDER BY a;'
