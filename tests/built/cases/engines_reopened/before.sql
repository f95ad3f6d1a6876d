CREATE TABLE s (k UInt8, n UInt64) ENGINE = SummingMergeTree ORDER BY k;
CREATE TABLE r (k UInt8, ver UInt8, s String) ENGINE = ReplacingMergeTree(ver) ORDER BY k;
CREATE TABLE c (k UInt8, v UInt8, sign Int8) ENGINE = CollapsingMergeTree(sign) ORDER BY k;
CREATE TABLE v (k UInt8, x UInt8, sign Int8, ver UInt8) ENGINE = VersionedCollapsingMergeTree(sign, ver) ORDER BY k;
CREATE TABLE a (k UInt8, m SimpleAggregateFunction(max, UInt8), f SimpleAggregateFunction(anyLast, String), p UInt8) ENGINE = AggregatingMergeTree ORDER BY k;
CREATE TABLE w (k UInt8, sign Int8, ver UInt8) ENGINE = VersionedCollapsingMergeTree(sign, ver) ORDER BY k SETTINGS index_granularity = 2;
INSERT INTO s;
1	18446744073709551615
\.
INSERT INTO r;
1	3	a
\.
INSERT INTO c;
1	10	1
1	20	1
\.
INSERT INTO v;
1	7	-1	1
\.
INSERT INTO a;
1	3	x	7
\.
INSERT INTO w;
1	1	9
2	1	0
1	1	2
1	-1	9
0	1	4
1	-1	2
\.
