CREATE TABLE u (a UInt8, s String) ENGINE = MergeTree ORDER BY a;
INSERT INTO u;
2	b
1	a
\.
