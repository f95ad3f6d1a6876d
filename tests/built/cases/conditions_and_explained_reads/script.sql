-- Granules (1 3) (3 3) (5): marks 1, 3, 5 and the final mark 5.
CREATE TABLE g (k UInt64) ENGINE = MergeTree ORDER BY k SETTINGS index_granularity = 2;
INSERT INTO g;
3
5
3
1
3
\.
EXPLAIN SELECT * FROM g WHERE k = 3;
EXPLAIN SELECT * FROM g WHERE k = 1;
EXPLAIN SELECT * FROM g WHERE k > 3;
EXPLAIN SELECT * FROM g WHERE k > 5;
SELECT * FROM g WHERE k = 3;

-- Two partitions.
CREATE TABLE h (p UInt8, k UInt8) ENGINE = MergeTree PARTITION BY p ORDER BY k;
EXPLAIN SELECT * FROM h WHERE k = 3;
INSERT INTO h;
2	1
1	5
2	0
\.
SELECT * FROM h WHERE p = 2;
SELECT k FROM h WHERE NOT p = 2 OR k = 1;
EXPLAIN SELECT * FROM h WHERE p = 2;
EXPLAIN SELECT * FROM h;

-- Texts, and a column that is asked and not selected.
CREATE TABLE t (a Int8, s String) ENGINE = MergeTree ORDER BY (s, a);
INSERT INTO t;
-1	it's
+7	a\tb
-128	
127	\xff
\.
SELECT a FROM t WHERE s = 'it''s' OR s = 'a\tb' OR s > '\xfe';
SELECT s FROM t WHERE a IN (-128, 7, 7) AND NOT a > 6;
SELECT s, s FROM t WHERE a < 0;

-- What is refused.
SELECT a FROM t WHERE a = 128;
SELECT a FROM t WHERE s = -  1;
SELECT a FROM t WHERE b = 1 AND a = 300;
SELECT a FROM t WHERE a IN ();
SELECT a FROM u WHERE a = 1;
EXPLAIN SELECT a FROM t WHERE a = '1';
EXPLAIN SELECT b FROM t;
EXPLAIN SELECT a FROM u;
EXPLAIN EXPLAIN SELECT a FROM t;
