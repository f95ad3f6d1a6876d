CREATE TABLE s (k UInt8, n UInt64) ENGINE = SummingMergeTree ORDER BY k;
INSERT INTO s;
1	18446744073709551615
\.
INSERT INTO s;
1	1
2	3
\.
SELECT * FROM s FINAL;
EXPLAIN SELECT * FROM s FINAL WHERE n = 3;
CREATE TABLE r (k UInt8, ver UInt8, s String) ENGINE = ReplacingMergeTree(ver) ORDER BY k;
INSERT INTO r;
1	3	a
\.
INSERT INTO r;
1	5	b
\.
INSERT INTO r;
1	5	c
\.
SELECT * FROM r FINAL;
OPTIMIZE TABLE r;
SELECT * FROM r;
SELECT s FROM r FINAL WHERE ver = 5;
CREATE TABLE x (k UInt8, v UInt8, INDEX iv v TYPE minmax GRANULARITY 1) ENGINE = ReplacingMergeTree ORDER BY k;
INSERT INTO x;
1	1
\.
INSERT INTO x;
1	2
\.
SELECT * FROM x FINAL WHERE v = 1;
EXPLAIN SELECT * FROM x FINAL WHERE v = 1;
SELECT * FROM x WHERE v = 1;
EXPLAIN SELECT * FROM x WHERE v = 1;
CREATE TABLE c (k UInt8, v UInt8, sign Int8) ENGINE = CollapsingMergeTree(sign) ORDER BY k;
INSERT INTO c;
1	10	1
\.
INSERT INTO c;
1	10	-1
\.
INSERT INTO c;
1	20	1
\.
SELECT * FROM c FINAL;
CREATE TABLE v (k UInt8, x UInt8, sign Int8, ver UInt8) ENGINE = VersionedCollapsingMergeTree(sign, ver) ORDER BY k;
INSERT INTO v;
1	7	-1	1
\.
INSERT INTO v;
1	7	1	1
\.
SELECT * FROM v FINAL;
CREATE TABLE q (p UInt8, k UInt8, s String) ENGINE = ReplacingMergeTree PARTITION BY p ORDER BY k;
INSERT INTO q;
1	1	a
2	1	b
\.
SELECT * FROM q FINAL;
EXPLAIN SELECT * FROM q FINAL WHERE p = 2;
CREATE TABLE a (k UInt8, m SimpleAggregateFunction(max, UInt8), f SimpleAggregateFunction(anyLast, String), p UInt8) ENGINE = AggregatingMergeTree ORDER BY k;
INSERT INTO a;
1	3	x	7
\.
INSERT INTO a;
1	2	y	8
\.
SELECT * FROM a FINAL;
CREATE TABLE w (a UInt8) ENGINE = MergeTree ORDER BY a;
INSERT INTO w;
1
1
\.
SELECT * FROM w FINAL;
