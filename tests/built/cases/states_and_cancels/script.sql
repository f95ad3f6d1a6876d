CREATE TABLE c (k UInt8, v UInt8, sign Int8) ENGINE = CollapsingMergeTree(sign) ORDER BY k;
INSERT INTO c;
1	10	1
\.
INSERT INTO c;
1	10	-1
\.
INSERT INTO c;
1	20	1
\.
SELECT * FROM c;
