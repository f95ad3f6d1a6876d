CREATE TABLE e (s String) ENGINE = MergeTree ORDER BY s;
INSERT INTO e;

\\
\\.
\.
SELECT * FROM e;
