# A String of 1048577 bytes; one of 1048576, the first of them an escape.
echo 'CREATE TABLE e (s String) ENGINE = MergeTree ORDER BY s;'
echo 'INSERT INTO e;'
head -c 1048577 /dev/zero | tr '\0' x
echo
echo '\.'
echo 'INSERT INTO e;'
printf '\\x78'
head -c 1048575 /dev/zero | tr '\0' x
echo
echo '\.'
