-- The rows that `flux eval` writes for this plan, in their order: one query for PostgreSQL, SQLite, and engines that take
-- PostgreSQL's SQL. It is right while no sum goes beyond 9,000,000,000,000,000,000 either way: there Flux cuts sums, and
-- this query doesn't. Marks and hold change no row.
--
-- The trades: n is the place in the file from 1, time is in seconds, value is qty times the price in cents, and of a sale
-- qty and value are below zero.
--   CREATE TABLE trades (n BIGINT, time BIGINT, account BIGINT, symbol TEXT, qty BIGINT, value BIGINT);
-- A file of them with the columns time,account,symbol,side,qty,price is loaded by sqlite3
--   .import --csv trades.csv trades_file
-- or by psql
--   CREATE TABLE trades_file (rowid BIGINT GENERATED ALWAYS AS IDENTITY, time TEXT, account BIGINT, symbol TEXT,
--     side TEXT, qty BIGINT, price NUMERIC);
--   \copy trades_file (time, account, symbol, side, qty, price) FROM 'trades.csv' WITH (FORMAT csv, HEADER)
-- and then by both
--   INSERT INTO trades
--   SELECT n, time, account, symbol, sign * qty, sign * qty * CAST(ROUND(price * 100) AS BIGINT)
--   FROM (SELECT rowid AS n, account, symbol, qty, price, CASE WHEN UPPER(side) LIKE 'B%' THEN 1 ELSE -1 END AS sign,
--            CASE WHEN time LIKE '%:%' THEN CAST(SUBSTR(time, 1, LENGTH(time) - 6) AS BIGINT) * 3600
--              + CAST(SUBSTR(time, LENGTH(time) - 4, 2) AS BIGINT) * 60 + CAST(SUBSTR(time, LENGTH(time) - 1) AS BIGINT)
--              ELSE CAST(time AS BIGINT) END AS time
--         FROM trades_file) AS fields;
--
-- Each stage takes the rows of the one before by (stamp, source, place): the stamp of the input that a row goes back to, the
-- partition that it comes from, and its place there. In a stage, routed are these rows with their order n, the partition
-- part that each goes to, and the account and symbol of its key.
WITH
-- A symbol's number: its place among the symbols by first appearance in the trades.
symbols AS (
  SELECT symbol AS name, ROW_NUMBER() OVER (ORDER BY MIN(n)) AS number FROM trades GROUP BY symbol
),
-- The inputs: the trades in their order.
input AS (
  SELECT n AS stamp, 0 AS source, 0 AS place, time, account, number AS symbol, qty, value
  FROM trades JOIN symbols ON symbols.name = trades.symbol
),
-- stage 1 parts 2 by symbol total symbol
stage1 AS (
  WITH routed AS (
    SELECT ROW_NUMBER() OVER (ORDER BY stamp, source, place) AS n, ((symbol % 2) + 2) % 2 AS part,
           stamp, time, 0 AS account, symbol, qty, value
    FROM input
  )
  SELECT stamp, part AS source, n AS place, time, account, symbol,
         CAST(SUM(qty) OVER k AS BIGINT) AS qty, CAST(SUM(value) OVER k AS BIGINT) AS value
  FROM routed
  WINDOW k AS (PARTITION BY part, account, symbol ORDER BY n)
),
-- stage 2 parts 1 by symbol keep qty >= 3000
stage2 AS (
  WITH routed AS (
    SELECT ROW_NUMBER() OVER (ORDER BY stamp, source, place) AS n, 0 AS part,
           stamp, time, account, symbol, qty, value
    FROM stage1
  )
  SELECT stamp, part AS source, n AS place, time, account, symbol, qty, value
  FROM routed
  WHERE qty >= 3000
)
SELECT time, account, COALESCE(name, '-') AS symbol, qty, value
FROM stage2 AS answers LEFT JOIN symbols ON symbols.number = answers.symbol
ORDER BY stamp, source, place;
