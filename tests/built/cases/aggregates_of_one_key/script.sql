CREATE TABLE a (k UInt8, m SimpleAggregateFunction(max, UInt8), f SimpleAggregateFunction(anyLast, String), p UInt8) ENGINE = AggregatingMergeTree ORDER BY k;
INSERT INTO a;
1	3	x	7
\.
INSERT INTO a;
1	2	y	8
\.
SELECT * FROM a;
