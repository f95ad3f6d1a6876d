CREATE TABLE visit (day UInt32, page String, seconds UInt16) ENGINE = MergeTree PARTITION BY day PRIMARY KEY page ORDER BY (page, seconds)
SETTINGS index_granularity = 1;
INSERT INTO visit;
20240102	home	12
20240101	home	40
20240102	about	3
20240102	home	7
\.
