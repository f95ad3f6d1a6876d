-- There is no such table yet.
SELECT * FROM t;

-- No statement of the grammar: at byte 9 stands FRM in place of FROM.
SELECT a FRM t;

-- The key names no column. That comes before the name that stands twice.
CREATE TABLE t (a UInt8, a String) ENGINE = MergeTree ORDER BY b;

CREATE TABLE t (a UInt8, a String) ENGINE = MergeTree ORDER BY a;

CREATE TABLE t (a UInt8, s String) ENGINE = MergeTree ORDER BY (a, s);

-- The table is there.
CREATE TABLE t (a UInt8, s String) ENGINE = MergeTree ORDER BY (a, s);

-- A field is missing in the first line.
INSERT INTO t;
1
\.

-- 256 is no UInt8: the first field of the second line. The first line adds no row either.
INSERT INTO t;
1	a
256	b
\.

INSERT INTO t;
1	a
\.

-- The table has no column b.
SELECT s, b FROM t;

SELECT s, a FROM t;

-- The script ends before the line that ends data. One row was complete.
INSERT INTO t;
2	b
