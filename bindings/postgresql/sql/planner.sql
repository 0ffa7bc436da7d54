CREATE TABLE orders AS SELECT i AS id, i % 1000 AS customer, 'c' || i % 1000 AS name, (i % 1000)::integer AS small
FROM generate_series(1::bigint, 20000) AS i;
ALTER TABLE orders ALTER customer SET STATISTICS 1000, ALTER name SET STATISTICS 1000, ALTER small SET STATISTICS 1000;
ANALYZE orders;
CREATE TABLE chosen AS SELECT bloom_filter_agg(i, 1000, 0.01) AS ids, bloom_filter_agg('c' || i, 1000, 0.01) AS names
FROM generate_series(1::bigint, 30) AS i;

-- Returns the rows that the planner expects and those that come.
CREATE FUNCTION planned(query text, OUT expected bigint, OUT actual bigint) LANGUAGE plpgsql AS $$
DECLARE
    plan json;
BEGIN
    EXECUTE 'EXPLAIN (ANALYZE, TIMING off, SUMMARY off, FORMAT json) ' || query INTO plan;
    expected := plan -> 0 -> 'Plan' ->> 'Plan Rows';
    actual := plan -> 0 -> 'Plan' ->> 'Actual Rows';
END $$;
SELECT ids AS ids, names AS names FROM chosen \gset

-- The filter is known: by the most common values of a column of few values, also behind a cast.
SELECT actual, expected BETWEEN actual / 2 AND 2 * actual AS is_near
FROM planned(format('SELECT FROM orders WHERE sketch_contains(%L::bloom_filter, customer)', :'ids'));
SELECT actual, expected BETWEEN actual / 2 AND 2 * actual AS is_near
FROM planned(format('SELECT FROM orders WHERE sketch_contains(%L::bloom_filter, name)', :'names'));
SELECT actual, expected BETWEEN actual / 2 AND 2 * actual AS is_near
FROM planned(format('SELECT FROM orders WHERE sketch_contains(%L::bloom_filter, small)', :'ids'));

-- By the number of items of the filter, where a column has no statistics but an index whose values are unique.
CREATE TABLE keys WITH (autovacuum_enabled = off) AS SELECT i AS id FROM generate_series(1::bigint, 10000) AS i;
CREATE UNIQUE INDEX ON keys (id);
VACUUM keys;
SELECT actual >= 30 AS is_found, expected <= 200 AS is_few
FROM planned(format('SELECT FROM keys WHERE sketch_contains(%L::bloom_filter, id)', :'ids'));

-- A filter that is not known is taken to pass a twentieth of the rows. One that is null passes none.
SELECT expected FROM planned('SELECT FROM orders WHERE sketch_contains((SELECT ids FROM chosen), customer)');
SELECT expected FROM planned('SELECT FROM orders WHERE sketch_contains(NULL::bloom_filter, customer)');

-- A filter with all bits set passes all rows.
SELECT expected FROM planned(format('SELECT FROM orders WHERE sketch_contains(%L::bloom_filter, customer)',
    (SELECT bloom_filter_agg_sized(i, 64, 5) FROM generate_series(1, 1000) AS i)));

-- Planning raises no error that running does not: of a filter without items of the column's type, or of a type that has no items.
SELECT count(*) FROM orders WHERE name = 'none' AND sketch_contains(:'ids'::bloom_filter, name);
SELECT count(*) FROM orders WHERE customer = -1 AND sketch_contains(:'names'::bloom_filter, customer);
CREATE TABLE rates AS SELECT (i % 10)::double precision AS rate FROM generate_series(1, 1000) AS i;
ANALYZE rates;
SELECT count(*) FROM rates WHERE rate = -1 AND sketch_contains(:'ids'::bloom_filter, rate);

-- A plan does not print a long filter. It finds what the filter has, also by an index on the call, and in workers.
SELECT ids AS long FROM (SELECT bloom_filter_agg(i, 100000, 0.01) AS ids FROM generate_series(1::bigint, 30) AS i) AS f \gset
CREATE FUNCTION explained(query text) RETURNS SETOF text LANGUAGE plpgsql AS $$BEGIN RETURN QUERY EXECUTE 'EXPLAIN (VERBOSE, COSTS off) ' || query; END$$;
SELECT explained(format('SELECT id FROM orders WHERE sketch_contains(%L::bloom_filter, customer)', :'long'));
SELECT count_min_agg_sized(i, 1, 4, 1024) AS counts, frequent_bigints_agg(i, 1, 1024) AS heavy FROM generate_series(1::bigint, 700) AS i \gset
SELECT length(plan) < 2000 AS is_short, (SELECT count(*) FROM regexp_matches(plan, 'bytes''::sketch_constant', 'g')) AS constants
FROM (SELECT string_agg(line, ' ') AS plan
    FROM explained(format('SELECT sketch_estimate(%1$L::count_min, customer), sketch_upper_bound(%1$L::count_min, customer),
        sketch_lower_bound(%2$L::frequent_bigints, customer), sketch_estimate(%2$L::frequent_bigints, customer),
        sketch_upper_bound(%2$L::frequent_bigints, customer), sketch_bounds(%2$L::frequent_bigints, customer) FROM orders',
        :'counts', :'heavy')) AS line) AS explained;
SELECT sum(sketch_upper_bound(:'heavy'::frequent_bigints, customer)) = sum(sketch_upper_bound(heavy, customer)) AS same_bounds,
    sum(sketch_estimate(:'counts'::count_min, customer)) = sum(sketch_estimate(counts, customer)) AS same_estimates
FROM orders, (SELECT :'heavy'::frequent_bigints AS heavy, :'counts'::count_min AS counts OFFSET 0) AS given;
SELECT length(:'long') > 120000 AS is_long, count(*) AS by_text FROM orders WHERE sketch_contains(:'long', customer);
SELECT actual, expected BETWEEN actual / 2 AND 2 * actual AS is_near
FROM planned(format('SELECT FROM orders WHERE sketch_contains(%L::bloom_filter, customer)', :'long'));
CREATE INDEX only_chosen ON orders (id) WHERE sketch_contains(:'long'::bloom_filter, customer);
CREATE INDEX is_chosen ON orders (sketch_contains(:'long'::bloom_filter, customer));
SET enable_seqscan = off;
SELECT explained(format('SELECT id FROM orders WHERE sketch_contains(%L::bloom_filter, customer) AND id < 100', :'long'));
SELECT count(*) FROM orders WHERE sketch_contains(:'long'::bloom_filter, customer) AND id < 1000;
RESET enable_seqscan;
CREATE VIEW by_view AS SELECT id FROM orders WHERE sketch_contains(:'long'::bloom_filter, customer);
SELECT length(pg_get_viewdef('by_view'::regclass)) > 120000 AS view_is_whole, count(*) FROM by_view;
SET parallel_setup_cost = 0;
SET parallel_tuple_cost = 0;
SET min_parallel_table_scan_size = 0;
SET enable_indexscan = off;
SET enable_bitmapscan = off;
SELECT count(*) FROM orders WHERE sketch_contains(:'long'::bloom_filter, customer);
RESET parallel_setup_cost;
RESET parallel_tuple_cost;
RESET min_parallel_table_scan_size;
RESET enable_indexscan;
RESET enable_bitmapscan;
\set VERBOSITY sqlstate
SELECT '7 bytes'::sketch_constant;
\set VERBOSITY default

-- Costs are those of the work: a look-up costs little, and a call that reads and writes a whole sketch much.
SELECT proname, min(procost), max(procost) FROM pg_proc WHERE proname IN ('sketch_contains', 'sketch_estimate', 'sketch_bounds', 'sketch_status',
    'sketch_union', 'sketch_add', 'sketch_image', 'frequent_rows', 'bloom_filter_eq') GROUP BY proname ORDER BY 2, 3, 1;
SELECT explained('SELECT id FROM orders, chosen WHERE sketch_contains(ids | ids, customer) AND sketch_contains(ids, customer) AND customer < 7');
