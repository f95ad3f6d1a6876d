# A CREATE of 1,048,576 bytes, most of them blanks, whose entry is the longest one.
front='CREATE TABLE t (a UInt8)' end=' ENGINE = MergeTree ORDER BY a'
printf '%s%*s%s;\n' "$front" $((1048576 - ${#front} - ${#end})) '' "$end"
