CREATE TABLE v (k UInt8, x UInt8, sign Int8, ver UInt8) ENGINE = VersionedCollapsingMergeTree(sign, ver) ORDER BY k;
INSERT INTO v;
1	7	-1	1
\.
INSERT INTO v;
1	7	1	1
\.
SELECT * FROM v;
