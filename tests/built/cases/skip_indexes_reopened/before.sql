-- The first block of three granules has three values, and a set of two keeps none.
CREATE TABLE n (k UInt8, v UInt8, INDEX iv v TYPE set(2) GRANULARITY 3) ENGINE = MergeTree ORDER BY k SETTINGS index_granularity = 1;
INSERT INTO n;
1	7
2	8
3	9
4	7
5	7
\.
EXPLAIN SELECT * FROM n WHERE v = 8;
EXPLAIN SELECT * FROM n WHERE v = 7;
SELECT * FROM n WHERE v = 8;

CREATE TABLE m (k UInt64, c UInt8, INDEX ic c TYPE minmax GRANULARITY 1) ENGINE = MergeTree ORDER BY k;
INSERT INTO m;
1	2
\.
EXPLAIN SELECT * FROM m WHERE c = 5;

-- Two indexes of one column, one of a text, among the columns; one is called as a column. Blocks of two granules: (2 b) (1 a), and (7 c).
CREATE TABLE w (INDEX a b TYPE minmax GRANULARITY 2, b Int16, INDEX s c TYPE set(0) GRANULARITY 2, c String, a UInt8, INDEX i b TYPE set(1) GRANULARITY 1)
ENGINE = MergeTree ORDER BY a SETTINGS index_granularity = 1;
INSERT INTO w;
-7	c	3
2	b	1
1	a	2
\.
EXPLAIN SELECT a FROM w WHERE b > 2;
EXPLAIN SELECT a FROM w WHERE b = 2;
EXPLAIN SELECT a FROM w WHERE b < 0 OR c = 'c';
EXPLAIN SELECT a FROM w WHERE NOT c = 'c';
EXPLAIN SELECT a FROM w WHERE c IN ('a', 'z') AND b = 1;
EXPLAIN SELECT a FROM w;
SELECT a FROM w WHERE c IN ('a', 'z') AND b = 1;
