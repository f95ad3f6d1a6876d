CREATE TABLE t (a UInt8, v UInt16, s String) ENGINE = MergeTree ORDER BY a SETTINGS index_granularity = 2;
INSERT INTO t;
4	40	w
1	10	x
3	30	z
2	20	y
\.
