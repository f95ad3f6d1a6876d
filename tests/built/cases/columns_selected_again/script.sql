CREATE TABLE t (a UInt8, s String) ENGINE = MergeTree ORDER BY a;
INSERT INTO t;
2	y
1	x
\.
INSERT INTO t;
1	w
\.
SELECT s, a, s FROM t;
SELECT a, a FROM t;
SELECT a, s, a, a, s FROM t;
