# A statement of 1048577 bytes, with blanks in it, and one behind it. Blanks before its first token do not count.
front='CREATE TABLE t (a UInt8) ENGINE = MergeTree ORDER BY'
printf '  %s%*s;' "$front" $((1048577 - ${#front})) a
echo 'SELECT * FROM t;'
