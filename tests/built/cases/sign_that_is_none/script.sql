CREATE TABLE c (k UInt8, v UInt8, sign Int8) ENGINE = CollapsingMergeTree(sign) ORDER BY k;
CREATE TABLE s (k UInt8, n UInt64) ENGINE = SummingMergeTree ORDER BY k;
INSERT INTO c;
1	1	0
\.
SELECT * FROM c;
