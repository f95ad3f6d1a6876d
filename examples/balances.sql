-- Accounts, of each the last version; what was booked on them, as sums; and their open orders, as states. Rows of one key are folded, by
-- FINAL while they are read, and by OPTIMIZE for good.
CREATE TABLE account (id UInt32, version UInt16, owner String, INDEX by_owner owner TYPE set(100) GRANULARITY 1)
ENGINE = ReplacingMergeTree(version)
ORDER BY id
SETTINGS index_granularity = 2;

INSERT INTO account;
1	1	ada
2	1	bob
3	1	cyd
\.

INSERT INTO account;
2	3	dan
\.

-- An older version that comes late.
INSERT INTO account;
2	2	eve
\.

SELECT * FROM account;

SELECT * FROM account FINAL;

-- A condition is asked of the row that is left, so bob has no account any more.
SELECT id FROM account WHERE owner = 'bob';

SELECT id FROM account FINAL WHERE owner = 'bob';

-- The index may leave granules out without FINAL alone, the key always.
EXPLAIN SELECT id FROM account WHERE owner = 'bob';

EXPLAIN SELECT id FROM account FINAL WHERE owner = 'bob';

EXPLAIN SELECT owner FROM account FINAL WHERE id = 3;

SELECT owner FROM account FINAL WHERE id = 3;

-- The cents are summed, by month and account. They may be below 0.
CREATE TABLE booked (month UInt32, account UInt32, cents Int64)
ENGINE = SummingMergeTree
PARTITION BY month
ORDER BY account;

INSERT INTO booked;
202401	1	5000
202401	2	700
202402	1	-1200
\.

INSERT INTO booked;
202401	1	-2000
202401	2	-700
202402	1	300
\.

-- The sum of account 2 is 0, so no row is left of it. Months are partitions, and no row is folded across them.
SELECT * FROM booked FINAL;

SELECT account, cents FROM booked FINAL WHERE month = 202401 AND cents > 0;

-- The two parts of one month become one. Those of the other stay as they are.
OPTIMIZE TABLE booked PARTITION ID '202401' FINAL;

SELECT * FROM booked;

SELECT * FROM booked FINAL;

-- A state is cancelled by a row with the sign -1 before the next one comes.
CREATE TABLE open_order (id UInt32, account UInt32, state String, sign Int8)
ENGINE = CollapsingMergeTree(sign)
ORDER BY id;

INSERT INTO open_order;
1	1	new	1
2	3	new	1
\.

INSERT INTO open_order;
1	1	new	-1
1	1	sent	1
\.

-- Order 2 is no longer open.
INSERT INTO open_order;
2	3	new	-1
\.

SELECT id, state, sign FROM open_order;

SELECT id, account, state FROM open_order FINAL;

-- One merge, of the first two parts: the cancel of order 2 is in the third.
OPTIMIZE TABLE open_order;

SELECT id, state, sign FROM open_order;

SELECT id, account, state FROM open_order FINAL;

OPTIMIZE TABLE open_order FINAL;

-- Now FINAL has nothing left to fold.
SELECT id, account, state FROM open_order;

EXPLAIN SELECT * FROM open_order;

-- The sign in the second line is neither 1 nor -1, so neither line is added.
INSERT INTO open_order;
3	2	new	1
4	2	new	0
\.

SELECT id FROM open_order FINAL WHERE account = 2;
