CREATE TABLE t (a UInt8, v UInt16, s String) ENGINE = MergeTree ORDER BY a SETTINGS index_granularity = 2;
INSERT INTO t;
4	40	w
1	10	x
3	30	z
2	20	y
\.
INSERT INTO t;
1	11	q
5	50	r
\.
CREATE TABLE u (a UInt8, s String) ENGINE = ReplacingMergeTree ORDER BY a;
INSERT INTO u;
1	x
\.
INSERT INTO u;
1	y
\.
