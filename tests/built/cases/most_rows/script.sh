# As many rows as an INSERT may have: lines without a byte are rows of the empty String.
echo 'CREATE TABLE e (s String) ENGINE = MergeTree ORDER BY s;'
echo 'INSERT INTO e;'
yes '' | head -n 1048576
echo '\.'
