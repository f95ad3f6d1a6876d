CREATE TABLE r (k UInt8, ver UInt8, s String) ENGINE = ReplacingMergeTree(ver) ORDER BY k;
INSERT INTO r;
1	3	a
\.
INSERT INTO r;
1	5	b
\.
INSERT INTO r;
1	5	c
\.
SELECT * FROM r;
