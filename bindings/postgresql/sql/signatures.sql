-- An error target is never read as a size, whatever type its literal has.
\set VERBOSITY terse
SELECT bloom_filter_agg(i, 1000, 1) FROM generate_series(1, 2) AS i;
SELECT bloom_filter_agg('a', 1000, 1);
SELECT count_min_agg(i, 1, 3, 64) FROM generate_series(1, 2) AS i;
SELECT signed_count_min_agg('a', 1, 0.1, 1);
SELECT count_min_agg(i, 3, 64) FROM generate_series(1, 2) AS i;
SELECT frequent_strings_agg('a', 1, 1);
SELECT bloom_filter_agg_sized(i, 1000, 0.01) FROM generate_series(1, 2) AS i;
\set VERBOSITY default
SELECT numbers = rates AS numeric_and_double, (sketch_status(numbers)).num_hashes
FROM (SELECT bloom_filter_agg(i, 1000, 0.01) AS numbers, bloom_filter_agg(i, 1000, 0.01::double precision) AS rates
    FROM generate_series(1, 5) AS i) AS f;

-- A weight that is left out is 1. The arguments differ in number alone.
CREATE TABLE pages AS SELECT 'page ' || i % 3 AS page, (i % 3)::bigint AS number FROM generate_series(1, 30) AS i;
SELECT count_min_agg(page, 0.01, 0.99) = count_min_agg(page, 1, 0.01, 0.99) AS strings,
    count_min_agg(number, 0.01, 0.99) = count_min_agg(number, 1, 0.01, 0.99) AS bigints,
    count_min_agg_sized(page, 4, 1024) = count_min_agg_sized(page, 1, 4, 1024) AS sized_strings,
    count_min_agg_sized(number, 4, 1024) = count_min_agg_sized(number, 1, 4, 1024) AS sized_bigints,
    signed_count_min_agg(page, 0.01, 0.99) = signed_count_min_agg(page, 1, 0.01, 0.99) AS signed_strings,
    signed_count_min_agg(number, 0.01, 0.99) = signed_count_min_agg(number, 1, 0.01, 0.99) AS signed_bigints,
    signed_count_min_agg_sized(page, 4, 1024) = signed_count_min_agg_sized(page, 1, 4, 1024) AS sized_signed_strings,
    signed_count_min_agg_sized(number, 4, 1024) = signed_count_min_agg_sized(number, 1, 4, 1024) AS sized_signed_bigints,
    sketch_estimate(count_min_agg_sized(page, 4, 1024), 'page 1') AS page_1
FROM pages;

-- Weights may have any integer type or numeric, as a sum of bigints has. Each sketch has the exact total of its rows' weights.
CREATE DOMAIN seconds AS bigint;
CREATE TABLE weighted AS SELECT page, n AS large, n::integer AS medium, n::smallint AS small, n::numeric AS exact, n::seconds AS own
FROM (VALUES ('a', 1::bigint), ('b', 20), ('a', 300), ('b', NULL), (NULL, 4000)) AS v(page, n);
SELECT sketch_bounds(frequent_strings_agg(page, large), 'a') AS bigint, sketch_bounds(frequent_strings_agg(page, medium), 'a') AS integer,
    sketch_bounds(frequent_strings_agg(page, small), 'a') AS smallint, sketch_bounds(frequent_strings_agg(page, exact), 'a') AS numeric,
    sketch_bounds(frequent_strings_agg(page, own), 'a') AS domain, sketch_bounds(frequent_strings_agg(page, 2, 64), 'a') AS constant,
    frequent_strings_agg(page, NULL::bigint) IS NULL AS no_weight
FROM weighted;
SELECT (sketch_status(frequent_bigints_agg(large, medium, 64))).total_weight AS sized,
    (sketch_status(frequent_bigints_agg(large, exact, 0.1))).total_weight AS by_error,
    (sketch_status(count_min_agg(page, small, 0.1, 0.9))).total_weight AS counts,
    sketch_estimate(signed_count_min_agg_sized(page, -exact, 3, 64), 'a') AS signed_counts
FROM weighted;
SELECT item, estimate FROM frequent_rows((SELECT frequent_strings_agg(page, total)
    FROM (SELECT page, sum(large) AS total FROM weighted GROUP BY page) AS pages)) ORDER BY item;
SELECT page, (sketch_status(frequent_strings_agg(page, sum(large)) OVER (ORDER BY page))).total_weight AS so_far
FROM weighted WHERE page IS NOT NULL GROUP BY page ORDER BY page;
SELECT sketch_estimate(signed_count_min_agg_sized('a', w, 3, 64), 'a')
FROM (VALUES (9223372036854775807.00), (-9223372036854775807)) AS v(w) GROUP BY w ORDER BY w;

-- Workers read weights of any of these types.
CREATE TABLE many_weights AS SELECT 'page ' || i % 50 AS page, i % 7 AS large, (i % 7)::integer AS medium, (i % 7)::numeric AS exact
FROM generate_series(1::bigint, 20000) AS i;
ANALYZE many_weights;
SET parallel_setup_cost = 0;
SET parallel_tuple_cost = 0;
SET min_parallel_table_scan_size = 0;
SET max_parallel_workers_per_gather = 2;
EXPLAIN (COSTS off) SELECT count_min_agg(page, medium, 0.01, 0.99), count_min_agg(page, exact, 0.01, 0.99) FROM many_weights;
CREATE TABLE by_workers AS SELECT count_min_agg(page, medium, 0.01, 0.99) AS of_integer, count_min_agg(page, exact, 0.01, 0.99) AS of_numeric
FROM many_weights;
SET max_parallel_workers_per_gather = 0;
SELECT of_integer = of_bigint AS integer, of_numeric = of_bigint AS numeric, (sketch_status(of_bigint)).total_weight
FROM by_workers, (SELECT count_min_agg(page, large, 0.01, 0.99) AS of_bigint FROM many_weights) AS s;
RESET parallel_setup_cost;
RESET parallel_tuple_cost;
RESET min_parallel_table_scan_size;
RESET max_parallel_workers_per_gather;

-- A weight that is not a whole number, or not a bigint, is an error. So is one of another type.
\set VERBOSITY sqlstate
SELECT frequent_strings_agg('a', 1.5);
SELECT frequent_strings_agg('a', 0.01, 64);
SELECT frequent_strings_agg('a', 9223372036854775807.4);
SELECT frequent_strings_agg('a', 9223372036854775808);
SELECT frequent_strings_agg('a', 1e300::numeric);
SELECT frequent_strings_agg('a', -1.0, 64);
SELECT signed_count_min_agg_sized('a', -9223372036854775808::numeric, 3, 64);
SELECT signed_count_min_agg_sized('a', -9223372036854775809::numeric, 3, 64);
SELECT count_min_agg('a', 'NaN'::numeric, 0.1, 0.9);
SELECT count_min_agg('a', 'Infinity'::numeric, 0.1, 0.9);
SELECT frequent_strings_agg('a', 1::double precision);
SELECT frequent_strings_agg('a', '1');
SELECT frequent_strings_agg('a', date '2026-01-01');
\set VERBOSITY terse
SELECT frequent_strings_agg('a', 1.5);
SELECT frequent_strings_agg('a', true);
\set VERBOSITY default

-- A second argument that is the same number for items of many rows is meant as a size. It is an error, unless it is 1 or a size follows.
CREATE TABLE others AS SELECT 'page ' || i % 3 AS page, i % 3 AS weight FROM generate_series(1, 30) AS i;
SELECT frequent_strings_agg(page, 4096) FROM others;
SELECT (sketch_status(frequent_strings_agg(page, 1, 4096))).max_map_size, (sketch_status(frequent_strings_agg(page, 1))).total_weight,
    (sketch_status(frequent_strings_agg(page, 7, 1024))).total_weight AS of_sevens, (sketch_status(frequent_strings_agg(page, weight))).total_weight AS of_weights
FROM others;
SELECT sketch_estimate(frequent_strings_agg('one item', 7), 'one item');
\set VERBOSITY sqlstate
SELECT frequent_bigints_agg(weight, 512 * 2) FROM others;
SELECT frequent_strings_agg(page, 64::numeric) FROM others;
SELECT frequent_strings_agg(page, 64) OVER () FROM others;
SELECT frequent_strings_agg(page, weight) OVER w, frequent_strings_agg(page, 64) OVER w FROM others WINDOW w AS (ORDER BY page);
PREPARE sized(integer) AS SELECT (sketch_status(frequent_strings_agg(page, $1))).total_weight FROM others;
SET plan_cache_mode = force_generic_plan;
EXECUTE sized(64);
EXECUTE sized(1);
SET plan_cache_mode = force_custom_plan;
EXECUTE sized(64);
EXECUTE sized(1);
RESET plan_cache_mode;
\set VERBOSITY default
SELECT count(s) FROM (SELECT frequent_strings_agg(page, weight) OVER w AS s, frequent_strings_agg(page, 64, 64) OVER w FROM others WINDOW w AS ()) AS t;
