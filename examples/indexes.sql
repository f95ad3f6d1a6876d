-- Visits, sorted by the page, with two rows in a granule. The least and the greatest number of seconds are kept of each granule, and of
-- each two granules the codes, where there are no more than two.
CREATE TABLE visit (page String, seconds UInt16, code UInt16,
  INDEX by_seconds seconds TYPE minmax GRANULARITY 1,
  INDEX by_code code TYPE set(2) GRANULARITY 2)
ENGINE = MergeTree
ORDER BY page
SETTINGS index_granularity = 2;

INSERT INTO visit;
news	90	200
about	3	200
home	12	200
prices	7	301
about	5	200
home	40	404
news	7	200
prices	8	500
\.

-- The granules are of two rows each: about, home, news, prices. Two of them have visits of more than 20 seconds.
EXPLAIN SELECT page, seconds FROM visit WHERE seconds > 20;

SELECT page, seconds FROM visit WHERE seconds > 20;

-- Of the first two granules the codes 200 and 404 are kept. The others have three, so nothing is known of them.
EXPLAIN SELECT page FROM visit WHERE code = 301;

EXPLAIN SELECT page FROM visit WHERE code = 200;

-- Each index is asked by itself, beside the marks: the one says nothing of the codes, the other nothing of the seconds.
EXPLAIN SELECT page FROM visit WHERE seconds > 20 OR code = 301;

EXPLAIN SELECT page FROM visit WHERE seconds > 20 AND code = 301;

SELECT page FROM visit WHERE seconds < 8 AND code = 301;

-- An index is of a column of the table, and no two have one name.
CREATE TABLE other (page String, INDEX by_hour hour TYPE minmax GRANULARITY 1) ENGINE = MergeTree ORDER BY page;

CREATE TABLE other (page String, INDEX i page TYPE minmax GRANULARITY 1, INDEX i page TYPE set(9) GRANULARITY 1) ENGINE = MergeTree ORDER BY page;
