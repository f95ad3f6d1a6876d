-- Visits, parted by the day, sorted by the page, with two rows in a granule.
CREATE TABLE visit (day UInt32, page String, seconds Int16)
ENGINE = MergeTree
PARTITION BY day
ORDER BY page
SETTINGS index_granularity = 2;

INSERT INTO visit;
20240101	home	40
20240101	about	-1
20240101	it's	7
20240102	home	12
20240102	about	3
20240102	home	7
20240102	news	90
20240102	prices	7
\.

-- The column that is asked need not be selected.
SELECT page FROM visit WHERE seconds >= 12;

-- NOT binds most, then AND, then OR.
SELECT day, page FROM visit WHERE page = 'about' OR seconds = 7 AND NOT day = 20240102;

-- A quote in a string is written twice, or with a backslash.
SELECT * FROM visit WHERE page IN ('it''s', 'about') AND seconds < 0;

-- What a SELECT would read: one part, since no row of the other has the day; and of its three granules the one that may have the page.
EXPLAIN SELECT seconds FROM visit WHERE day = 20240102 AND page = 'news';

SELECT seconds FROM visit WHERE day = 20240102 AND page = 'news';

-- Nothing is known of seconds in a granule that was not read.
EXPLAIN SELECT page FROM visit WHERE seconds >= 12;

-- 40000 is no Int16: the literal at byte 39.
SELECT page FROM visit WHERE seconds = 40000;

-- There is no column hour, which is told before the literal.
SELECT page FROM visit WHERE seconds = 40000 AND hour = 8;

-- A list has at least one literal.
SELECT page FROM visit WHERE seconds IN ();
