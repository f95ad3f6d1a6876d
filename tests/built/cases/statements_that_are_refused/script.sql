CREATE TABLE t (a UInt8, s String) ENGINE = MergeTree ORDER BY a;
SELECT a FRM t;
SELECT a FROM u;
SELECT b FROM t;
CREATE TABLE t (a UInt8, s String) ENGINE = MergeTree ORDER BY a;
