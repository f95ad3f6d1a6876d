# As many rows as an INSERT may have, in 128 granules; conditions at the borders of granules, and on a column that is not sorted.
echo 'CREATE TABLE n (k UInt32, r UInt16, s String) ENGINE = MergeTree ORDER BY k;'
echo 'INSERT INTO n;'
seq 1048576 | awk '{ printf "%d\t%d\trow %d\n", $1, $1 * 7919 % 10007, $1 }'
echo '\.'
for condition in 'k = 1' 'k = 8192' 'k = 8193' 'k IN (8192, 8193, 1048576)' 'k > 1048575' 'k < 2 OR k >= 1048575' 'r = 5 AND k < 30000' 'r = 10007' \
    'r < 1 AND NOT k < 900000' "s = 'row 777777'" "k > 500000 AND k < 500003 AND s != 'row 500001'" 'k = 1048577'; do
    echo "SELECT s FROM n WHERE $condition;"
    echo "EXPLAIN SELECT s FROM n WHERE $condition;"
done
