# One INSERT with a row more than a table takes, and one without rows.
echo 'CREATE TABLE t (a UInt8) ENGINE = MergeTree ORDER BY a;'
for i in $(seq 3001); do
    printf 'INSERT INTO t;\n7\n\\.\n'
done
printf 'INSERT INTO t;\n\\.\n'
