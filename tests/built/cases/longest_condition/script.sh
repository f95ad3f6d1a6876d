# A condition of as many bytes as a statement may have, of 10000 literals and of tests; and one of a byte more.
echo 'CREATE TABLE t (a UInt16, s String) ENGINE = MergeTree ORDER BY a SETTINGS index_granularity = 1;'
printf 'INSERT INTO t;\n3\tc\n1\ta\n9\t\n2\tb\n\\.\n'
begin='SELECT a FROM t WHERE a IN (10000'
list=$(seq -f ', %.0f' 10001 20000 | tr -d '\n')
for rest in 2 3; do
    text="$begin$list, $rest) OR s = 'a'"
    printf '%s%*s;\n' "$text" $((1048574 - ${#text} + rest)) ''
done
tests=$(yes ' OR a = 9' | head -n 100000 | tr -d '\n')
echo "SELECT a FROM t WHERE a = 1$tests;"
echo "EXPLAIN SELECT a FROM t WHERE a = 1$tests;"
