-- Lists of more than four values, unsorted, some with one twice. Granules (10 20) (30 40) (50 60): marks 10, 30, 50 and the final mark 60.
CREATE TABLE l (k UInt64, a Int8, s String) ENGINE = MergeTree ORDER BY k SETTINGS index_granularity = 2;
INSERT INTO l;
10	-128	b
20	127	
30	0	a
40	-1	ab
50	1	\xff
60	100	b
\.
SELECT k FROM l WHERE k IN (60, 25, 10, 60, 40, 5);
SELECT k FROM l WHERE NOT k IN (50, 10, 40, 20, 30);
SELECT k FROM l WHERE a IN (127, -128, 100, 5, 6, 7);
SELECT k FROM l WHERE NOT a IN (127, -128, 100, 0, 1);
SELECT k FROM l WHERE s IN ('b', 'c', '', 'aa', '\xff', 'b');
SELECT k FROM l WHERE NOT s IN ('b', 'c', '', 'aa', '\xff');

-- None of them in a box, one at its end, one at its begin, one in two boxes, and all boxes beside them.
EXPLAIN SELECT k FROM l WHERE k IN (61, 62, 9, 8, 7, 63);
EXPLAIN SELECT k FROM l WHERE k IN (60, 61, 9, 8, 7);
EXPLAIN SELECT k FROM l WHERE k IN (9, 10, 1, 2, 3);
EXPLAIN SELECT k FROM l WHERE k IN (30, 1, 2, 3, 4);
EXPLAIN SELECT k FROM l WHERE k IN (5, 12, 55, 4, 3);
EXPLAIN SELECT k FROM l WHERE NOT k IN (1, 2, 3, 4, 5);

-- The values that a set keeps.
CREATE TABLE w (k UInt8, c String, INDEX x c TYPE set(0) GRANULARITY 1) ENGINE = MergeTree ORDER BY k SETTINGS index_granularity = 2;
INSERT INTO w;
1	a
2	b
3	c
4	d
\.
EXPLAIN SELECT k FROM w WHERE c IN ('z', 'y', 'd', 'x', 'e');
SELECT k FROM w WHERE c IN ('z', 'y', 'd', 'x', 'e');
