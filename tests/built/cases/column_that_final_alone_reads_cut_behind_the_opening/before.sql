CREATE TABLE t (a UInt8, v UInt16, s String) ENGINE = ReplacingMergeTree ORDER BY a SETTINGS index_granularity = 2;
INSERT INTO t;
4	40	w
1	10	x
3	30	z
2	20	y
\.
INSERT INTO t;
1	11	q
\.
