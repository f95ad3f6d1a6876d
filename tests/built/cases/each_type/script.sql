CREATE TABLE n (a UInt8, b UInt16, c UInt32, d UInt64, e Int8, f Int16, g Int32, h Int64, s String)
ENGINE = MergeTree() ORDER BY (e, s);
INSERT INTO n FORMAT TSV;
255	65535	300	18446744073709551615	127	-2	2147483647	9223372036854775807	z
0	0	0	0	-128	-32768	-2147483648	-9223372036854775808	
\.
INSERT INTO n;
1	2	3	4	5	6	7	8	xxxxxxxxxxxxxxxxxxxxxxxxxxxxxxxxxxxxxxxxxxxxxxxxxxxxxxxxxxxxxxxxxxxxxxxxxxxxxxxxxxxxxxxxxxxxxxxxxxxxxxxxxxxxxxxxxxxxxxxxxxxxxxxxxxxxxxxxxxxxxxxxxxxxxxxxxxxxxxxxxxxxxxxxxxxxxxxxxxxxxxxxxxxxxxxxxxxxxxxxxxxxxxxxxxxxxxxxxxxxxxxxxxxxxxxxxxxxxxxxxxxxxxxxxxxxxxxxxxxxxxxxxxxxxxxxxxxxxxxxxxxxxxxxxxxxxxxxxxxx
\.
SELECT e, f, c FROM n;
