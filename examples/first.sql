-- A table of two columns, sorted by the first of them.
CREATE TABLE fruit (amount UInt8, name String)
ENGINE = MergeTree
ORDER BY amount;

-- The data begins on the line behind the semicolon, and ends at the line \.
INSERT INTO fruit;
12	pear
3	plum
12	apple
\.

SELECT * FROM fruit;

-- The one format, tab-separated, may be named.
INSERT INTO fruit FORMAT TSV;
3	plum
\.

-- Rows are sorted by the columns that are selected, from left to right.
SELECT name, amount FROM fruit;
