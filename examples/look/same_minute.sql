-- The rows that `flux eval` writes for this plan, in their order: one query for PostgreSQL, SQLite, and engines that take
-- PostgreSQL's SQL. It is right while no sum goes beyond 9,000,000,000,000,000,000 either way: there Flux cuts sums, and
-- this query doesn't. Marks and hold change no row.
--
-- The trades: n is the place in the file from 1, time is in seconds, value is qty times the price in cents, and of a sale
-- qty and value are below zero.
--   CREATE TABLE trades (n BIGINT, time BIGINT, account BIGINT, symbol TEXT, qty BIGINT, value BIGINT);
-- A file of them with the columns time,account,symbol,side,qty,price is loaded by sqlite3
--   .import --csv trades.csv trades_file
-- or by psql
--   CREATE TABLE trades_file (rowid BIGINT GENERATED ALWAYS AS IDENTITY, time TEXT, account BIGINT, symbol TEXT,
--     side TEXT, qty BIGINT, price NUMERIC);
--   \copy trades_file (time, account, symbol, side, qty, price) FROM 'trades.csv' WITH (FORMAT csv, HEADER)
-- and then by both
--   INSERT INTO trades
--   SELECT n, time, account, symbol, sign * qty, sign * qty * CAST(ROUND(price * 100) AS BIGINT)
--   FROM (SELECT rowid AS n, account, symbol, qty, price, CASE WHEN UPPER(side) LIKE 'B%' THEN 1 ELSE -1 END AS sign,
--            CASE WHEN time LIKE '%:%' THEN CAST(SUBSTR(time, 1, LENGTH(time) - 6) AS BIGINT) * 3600
--              + CAST(SUBSTR(time, LENGTH(time) - 4, 2) AS BIGINT) * 60 + CAST(SUBSTR(time, LENGTH(time) - 1) AS BIGINT)
--              ELSE CAST(time AS BIGINT) END AS time
--         FROM trades_file) AS fields;
--
-- The cash movements: n is the place in their file from 1, and amount is in cents. Without such a file the table is empty.
--   CREATE TABLE movements (n BIGINT, time BIGINT, account BIGINT, amount BIGINT);
-- A file of them with the columns time,account,amount is loaded by sqlite3
--   .import --csv cash.csv movements_file
-- or by psql
--   CREATE TABLE movements_file (rowid BIGINT GENERATED ALWAYS AS IDENTITY, time TEXT, account BIGINT, amount NUMERIC);
--   \copy movements_file (time, account, amount) FROM 'cash.csv' WITH (FORMAT csv, HEADER)
-- and then by both
--   INSERT INTO movements
--   SELECT n, time, account, CAST(ROUND(amount * 100) AS BIGINT)
--   FROM (SELECT rowid AS n, account, amount,
--            CASE WHEN time LIKE '%:%' THEN CAST(SUBSTR(time, 1, LENGTH(time) - 6) AS BIGINT) * 3600
--              + CAST(SUBSTR(time, LENGTH(time) - 4, 2) AS BIGINT) * 60 + CAST(SUBSTR(time, LENGTH(time) - 1) AS BIGINT)
--              ELSE CAST(time AS BIGINT) END AS time
--         FROM movements_file) AS fields;
--
-- Each stage takes the rows of the one before by (stamp, source, place): the stamp of the input that a row goes back to, the
-- partition that it comes from, and its place there. In a stage, routed are these rows with their order n, the partition
-- part that each goes to, and the account and symbol of its key.
WITH
-- A symbol's number: its place among the symbols by first appearance in the trades.
symbols AS (
  SELECT symbol AS name, ROW_NUMBER() OVER (ORDER BY MIN(n)) AS number FROM trades GROUP BY symbol
),
-- The inputs: trades and movements by their times, of one time trades first.
input AS (
  WITH sources AS (
    SELECT 0 AS source, n, time, account, number AS symbol, qty, value
    FROM trades JOIN symbols ON symbols.name = trades.symbol
    UNION ALL SELECT 1, n, time, account, 0, 0, amount FROM movements
  )
  SELECT ROW_NUMBER() OVER (ORDER BY time, source, n) AS stamp, source, 0 AS place, time, account, symbol, qty, value FROM sources
),
-- stage 1 parts 2 by account join account 60 2 symbol = 0
stage1 AS (
  WITH routed AS (
    SELECT ROW_NUMBER() OVER (ORDER BY stamp, source, place) AS n, ((account % 2) + 2) % 2 AS part,
           stamp, time, account, 0 AS symbol, qty, value, (symbol = 0) AS side
    FROM input
  ), sides AS (
    SELECT part, account, symbol, stamp, n, time, qty, value, side, time / 60 AS span,
           ROW_NUMBER() OVER s AS own, ROW_NUMBER() OVER k - ROW_NUMBER() OVER s AS other
    FROM routed
    WINDOW k AS (PARTITION BY part, account, symbol ORDER BY n), s AS (PARTITION BY part, account, symbol, side ORDER BY n)
  )
  SELECT b.stamp, b.part AS source, ROW_NUMBER() OVER (ORDER BY b.n, a.n) AS place, b.time, b.account, b.symbol,
         a.qty + b.qty AS qty, a.value + b.value AS value
  FROM sides AS b JOIN sides AS a
    ON a.part = b.part AND a.account = b.account AND a.symbol = b.symbol AND a.span = b.span AND a.side <> b.side
   AND a.own > b.other - 2 AND a.own <= b.other
)
SELECT time, account, COALESCE(name, '-') AS symbol, qty, value
FROM stage1 AS answers LEFT JOIN symbols ON symbols.number = answers.symbol
ORDER BY stamp, source, place;
