# One row more than an INSERT may have.
echo 'CREATE TABLE e (s String) ENGINE = MergeTree ORDER BY s;'
echo 'INSERT INTO e;'
yes '' | head -n 1048577
echo '\.'
echo 'SELECT * FROM e;'
