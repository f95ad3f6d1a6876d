# More than the file system holds, between two rows.
echo 'CREATE TABLE t (a UInt8, s String) ENGINE = MergeTree ORDER BY a;'
printf 'INSERT INTO t;\n1\ta\n\\.\nINSERT INTO t;\n'
for row in $(seq 255); do printf '%d\t%02000d\n' "$row" 0; done
printf '\\.\nINSERT INTO t;\n2\tb\n\\.\nSELECT * FROM t;\n'
