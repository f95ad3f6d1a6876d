CREATE TABLE t (p UInt8, k UInt16, s String, n UInt32, INDEX i s TYPE set(3) GRANULARITY 1, INDEX j n TYPE minmax GRANULARITY 2) ENGINE = SummingMergeTree(n) PARTITION BY p ORDER BY (k, s) PRIMARY KEY k SETTINGS index_granularity = 2;
INSERT INTO t;
1	7	b	1
2	7	b	2
1	5	a	3
1	7	b	4
\.
INSERT INTO t;
1	7	b	8
2	6		16
\.
SELECT * FROM t WHERE (((((((((((((((((((((((((((((((((((((((((((((((((((((((((((((((k > 5 AND NOT s = ''))))))))))))))))))))))))))))))))))))))))))))))))))))))))))))))) OR n IN (3, 16);
SELECT * FROM t FINAL WHERE (((((((((((((((((((((((((((((((((((((((((((((((((((((((((((((((k > 5 AND NOT s = ''))))))))))))))))))))))))))))))))))))))))))))))))))))))))))))))) OR n IN (3, 16);
EXPLAIN SELECT * FROM t WHERE s = 'b' AND NOT k = 5;
OPTIMIZE TABLE t;
OPTIMIZE TABLE t FINAL;
SELECT * FROM t;
SELECT k FRM t;
