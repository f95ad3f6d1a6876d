CREATE TABLE t (a UInt8, s String) ENGINE = MergeTree ORDER BY a;
INSERT INTO t;
1
\.
INSERT INTO t;
256	x
\.
INSERT INTO t;
1	\N
\.
INSERT INTO t;
1	\x41\q\'
\.
SELECT s FROM t;
