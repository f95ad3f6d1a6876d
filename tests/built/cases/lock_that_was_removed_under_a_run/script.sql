INSERT INTO t;
1	a
\.
