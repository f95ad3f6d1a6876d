CREATE TABLE z (k UInt8) ENGINE = SummingMergeTree ORDER BY k;
CREATE TABLE z (k UInt8, v String) ENGINE = ReplacingMergeTree(v) ORDER BY k;
CREATE TABLE z (k UInt8) ENGINE = MergeTree ORDER BY j;
