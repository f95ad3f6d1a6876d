CREATE TABLE t (s String) ENGINE = MergeTree ORDER BY s;
INSERT INTO t;
;CREATE TABLE evil (a UInt8) ENGINE = MergeTree ORDER BY a;
\.
