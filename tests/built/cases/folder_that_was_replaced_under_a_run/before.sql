CREATE TABLE t (a UInt8, s String) ENGINE = MergeTree ORDER BY a;
