CREATE TABLE w (k UInt8, sign Int8, ver UInt8) ENGINE = VersionedCollapsingMergeTree(sign, ver) ORDER BY k SETTINGS index_granularity = 2;
INSERT INTO w;
1	1	9
2	1	0
1	1	2
1	-1	9
0	1	4
1	-1	2
\.
SELECT * FROM w;
EXPLAIN SELECT * FROM w WHERE k = 1;
EXPLAIN SELECT * FROM w WHERE k = 2;
