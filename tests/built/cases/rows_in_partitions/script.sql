-- A table that is parted by the day. The primary key is a front of the sorting key.
CREATE TABLE visit (day UInt32, page String, seconds UInt16)
ENGINE = MergeTree
PARTITION BY day
PRIMARY KEY page
ORDER BY (page, seconds)
SETTINGS index_granularity = 4096;

-- Three rows in two partitions: first those of 20240102, which comes first here, are accepted, then that of 20240101.
INSERT INTO visit;
20240102	home	12
20240101	home	40
20240102	about	3
\.

SELECT * FROM visit;

-- The first field of the third line is no UInt32, so no partition gets a row.
INSERT INTO visit;
20240103	home	1
20240101	home	2
today	home	3
\.

INSERT INTO visit;
20240101	about	7
\.

-- Rows are sorted by what is selected, whatever their partitions are.
SELECT page, seconds FROM visit;

-- A column with a sign parts no table.
CREATE TABLE t (a Int8, b UInt8) ENGINE = MergeTree PARTITION BY a ORDER BY b;

-- The sorting key begins with a, and the primary key doesn't.
CREATE TABLE t (a UInt8, b UInt8) ENGINE = MergeTree PARTITION BY a PRIMARY KEY b ORDER BY (a, b);
