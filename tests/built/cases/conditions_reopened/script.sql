SELECT seconds FROM visit WHERE day = 20240102 AND page = 'home';
EXPLAIN SELECT seconds FROM visit WHERE day = 20240102 AND page = 'home';
INSERT INTO visit;
20240103	home	12
20240101	about	12
\.
SELECT day FROM visit WHERE seconds = 12;
EXPLAIN SELECT day FROM visit WHERE seconds = 12;
