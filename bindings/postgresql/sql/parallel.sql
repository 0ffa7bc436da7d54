-- Workers fill a sketch each, and the leader merges them.
CREATE TABLE facts AS SELECT i % 100 AS number, 'string ' || i % 100 AS string, i % 5 AS weight
FROM generate_series(1::bigint, 200000) AS i;
ANALYZE facts;
SET parallel_setup_cost = 0;
SET parallel_tuple_cost = 0;
SET min_parallel_table_scan_size = 0;
SET max_parallel_workers_per_gather = 2;
EXPLAIN (COSTS off)
SELECT frequent_strings_agg(string), frequent_bigints_agg(number, weight, 1024), count_min_agg_sized(number, weight, 4, 4096),
    signed_count_min_agg_sized(string, -weight, 4, 4096), bloom_filter_agg(string, 1000, 0.01)
FROM facts;
CREATE TABLE parallel AS
SELECT frequent_strings_agg(string) AS strings, frequent_bigints_agg(number, weight, 1024) AS bigints,
    count_min_agg_sized(number, weight, 4, 4096) AS counts, signed_count_min_agg_sized(string, -weight, 4, 4096) AS signed_counts,
    bloom_filter_agg(string, 1000, 0.01) AS filter
FROM facts;
SET max_parallel_workers_per_gather = 0;
CREATE TABLE serial AS
SELECT frequent_strings_agg(string) AS strings, frequent_bigints_agg(number, weight, 1024) AS bigints,
    count_min_agg_sized(number, weight, 4, 4096) AS counts, signed_count_min_agg_sized(string, -weight, 4, 4096) AS signed_counts,
    bloom_filter_agg(string, 1000, 0.01) AS filter
FROM facts;
SELECT p.counts = s.counts AS counts, p.signed_counts = s.signed_counts AS signed_counts, p.filter = s.filter AS filter
FROM parallel AS p, serial AS s;
SELECT bool_and(sketch_estimate(p.strings, string) = e.rows AND sketch_estimate(p.bigints, number) = e.total) AS exact, count(*) AS items
FROM parallel AS p, (SELECT string, number, count(*) AS rows, sum(weight) AS total FROM facts GROUP BY string, number) AS e;

-- The bounds of each key hold for what workers filled and purged.
SET max_parallel_workers_per_gather = 2;
CREATE TABLE spread AS SELECT i * i % (i % 5000 + 1) AS number FROM generate_series(1::bigint, 100000) AS i;
ANALYZE spread;
WITH s AS MATERIALIZED (SELECT frequent_bigints_agg(number, 1, 64) AS sketch FROM spread),
    e AS MATERIALIZED (SELECT number, count(*) AS rows FROM spread GROUP BY number)
SELECT bool_and(rows BETWEEN sketch_lower_bound(sketch, number) AND sketch_upper_bound(sketch, number)) AS within,
    max((sketch_status(sketch)).total_weight) AS total, max((sketch_status(sketch)).maximum_error) > 0 AS has_error
FROM s, e;

-- Groups, and unions of stored sketches, in workers.
CREATE TABLE stored AS
SELECT number % 1000 AS part, bloom_filter_agg_sized(number, 5000, 4) AS filter, frequent_bigints_agg(number) AS bigints
FROM spread GROUP BY number % 1000;
ANALYZE stored;
EXPLAIN (COSTS off) SELECT bloom_filter_union(filter), frequent_bigints_union(bigints) FROM stored;
SELECT bloom_filter_union(filter) = (SELECT bloom_filter_agg_sized(number, 5000, 4) FROM spread) AS filter,
    (sketch_status(frequent_bigints_union(bigints))).total_weight
FROM stored;

-- Sizes that differ between rows of workers are an error too.
\set VERBOSITY sqlstate
SELECT frequent_bigints_agg(number, 1, CASE WHEN number < 50 THEN 64 ELSE 128 END) FROM facts;
\set VERBOSITY default
