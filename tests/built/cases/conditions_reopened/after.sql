SELECT * FROM visit WHERE page < 'home' OR seconds > 12;
EXPLAIN SELECT * FROM visit WHERE page < 'home';
SELECT page FROM visit WHERE day IN (20240103, 20240104);
EXPLAIN SELECT * FROM visit;
