INSERT INTO t;
9	x
\.
