# A statement of 1048576 bytes, with blanks in it.
front='CREATE TABLE t (a UInt8) ENGINE = MergeTree ORDER BY'
printf '  %s%*s;' "$front" $((1048576 - ${#front})) a
echo 'SELECT * FROM t;'
