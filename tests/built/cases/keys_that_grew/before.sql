CREATE TABLE t (a UInt8, s String, INDEX i s TYPE minmax GRANULARITY 1) ENGINE = MergeTree ORDER BY a;
INSERT INTO t;
2	b
1	a
\.
SELECT * FROM t;
