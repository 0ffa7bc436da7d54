-- Sizes from an error target are those of the other interfaces.
SELECT (sketch_status(bloom_filter_agg(i, 1000000, 0.01))).capacity, (sketch_status(bloom_filter_agg(i, 1000000, 0.01))).num_hashes
FROM generate_series(1, 2) AS i;
SELECT (sketch_status(bloom_filter_agg('key ' || i, 1000, 0.01))).capacity FROM generate_series(1, 2) AS i;
SELECT (sketch_status(count_min_agg(i, 1, 0.001, 0.98))).num_buckets, (sketch_status(count_min_agg(i, 1, 0.001, 0.98))).num_hashes
FROM generate_series(1, 2) AS i;
SELECT (sketch_status(signed_count_min_agg('key ' || i, 1, 0.001, 0.98))).num_buckets,
    (sketch_status(signed_count_min_agg('key ' || i, 1, 0.001, 0.98))).num_hashes
FROM generate_series(1, 2) AS i;
SELECT (sketch_status(frequent_strings_agg('key ' || i, 1, 0.01))).max_map_size AS strings,
    (sketch_status(frequent_bigints_agg(i, 1, 0.01))).max_map_size AS bigints
FROM generate_series(1, 2) AS i;

-- The error is within its target.
CREATE TABLE skewed AS SELECT (i * i) % (i % 1000 + 1) AS item FROM generate_series(1::bigint, 50000) AS i;
SELECT (sketch_status(frequent_bigints_agg(item, 1, 0.01))).maximum_error <= 0.01 * count(*) AS within FROM skewed;
SELECT count(*) < 0.02 * 10000 AS few_false_positives
FROM generate_series(100001::bigint, 110000) AS i
WHERE sketch_contains((SELECT bloom_filter_agg(j, 10000, 0.01) FROM generate_series(1::bigint, 10000) AS j), i);

-- Filters for few items keep their rate, too: about 100 of 100,000 items, and not several hundred.
SELECT n, (SELECT count(*) FROM generate_series(1000001::bigint, 1100000) AS i WHERE sketch_contains(filter, i)) <= 150 AS few_false_positives
FROM (SELECT n, bloom_filter_agg(j, n, 0.001) AS filter FROM (VALUES (1), (2), (3), (10)) AS v (n), generate_series(1::bigint, n) AS j
    GROUP BY n) AS small ORDER BY n;

-- By default frequent items have 1024 slots.
SELECT (sketch_status(frequent_strings_agg('a'))).max_map_size, (sketch_status(frequent_bigints_agg(1))).maximum_map_capacity;
SELECT (sketch_status(frequent_strings_agg('a', 1, 8))).max_map_size, (sketch_status(frequent_bigints_agg(1, 1, 65536))).maximum_map_capacity;

-- Sizes are checked.
\set VERBOSITY sqlstate
SELECT frequent_strings_agg('a', 1, 100);
SELECT frequent_strings_agg('a', 1, 4);
SELECT frequent_strings_agg('a', 1, -8);
SELECT frequent_strings_agg('a', 1, 0.0001);
SELECT frequent_strings_agg('a', 1, 0.0);
SELECT frequent_strings_agg('a', 1, 1.5);
SELECT frequent_strings_agg('a', 1, 'NaN'::float8);
SELECT frequent_bigints_agg(1, 1, NULL::integer);
SELECT count_min_agg_sized(1, 1, 0, 100);
SELECT count_min_agg_sized(1, 1, 256, 100);
SELECT count_min_agg_sized(1, 1, 3, 2);
SELECT count_min_agg_sized(1, 1, 3, -1);
SELECT count_min_agg(1, 1, 0.1, 1.0);
SELECT count_min_agg(1, 1, -0.1, 0.5);
SELECT bloom_filter_agg_sized(1, 0, 3);
SELECT bloom_filter_agg_sized(1, 64, 0);
SELECT bloom_filter_agg_sized(1, 64, 40000);
SELECT bloom_filter_agg_sized(1, -64, 3);
SELECT bloom_filter_agg(1, 0, 0.1);
SELECT bloom_filter_agg(1, 100, 0.0);
SELECT bloom_filter_agg(1, NULL, 0.1);

-- Sizes are the same at all rows of a group.
SELECT frequent_bigints_agg(i, 1, 8 << i) FROM generate_series(1, 2) AS i;
SELECT count_min_agg_sized(i, 1, 3, 64 + i) FROM generate_series(1, 2) AS i;
SELECT signed_count_min_agg_sized(i, 1, 3 + i, 64) FROM generate_series(1, 2) AS i;
SELECT bloom_filter_agg(i, 1000, 0.1 / i) FROM generate_series(1, 2) AS i;
SELECT bloom_filter_agg_sized(i, CASE i WHEN 1 THEN 64 END, 3) FROM generate_series(1, 2) AS i;
SELECT i, (sketch_status(bloom_filter_agg_sized(i, 64 * i, 3))).capacity FROM generate_series(1, 2) AS i GROUP BY i ORDER BY i;

-- A sketch is within the limits, with its strings.
SET sketches_rattle.max_image_bytes = '64kB';
SELECT bloom_filter_agg_sized(1, 1000000, 3);
SELECT count_min_agg_sized(1, 1, 5, 10000);
SELECT frequent_bigints_agg(1, 1, 4096);
SELECT (sketch_status(frequent_strings_agg(repeat('x', 1000) || i))).num_active_items FROM generate_series(1, 10) AS i;
SELECT frequent_strings_agg(repeat('x', 1000) || i) FROM generate_series(1, 100) AS i;
SELECT (sketch_status(frequent_strings_agg(repeat('x', 1000) || i % 3))).num_active_items FROM generate_series(1, 1000) AS i;
RESET sketches_rattle.max_image_bytes;
CREATE TABLE long AS SELECT frequent_strings_agg(repeat('x', 1000) || i) AS strings, bloom_filter_agg_sized(i, 1000000, 3) AS filter
FROM generate_series(1, 100) AS i;
SELECT (sketch_status(strings)).num_active_items, sketch_contains(filter, 7) FROM long;
SET sketches_rattle.max_image_bytes = '64kB';
SELECT sketch_status(strings) FROM long;
-- What the types' own forms have was stored before: a user's settings do not limit it.
SELECT strings::text::frequent_strings IS NOT NULL AS text, (strings::bytea)::frequent_strings IS NOT NULL AS bytea FROM long;
SELECT strings::text::frequent_strings IS NOT NULL AS text FROM long;
SELECT frequent_strings_from_image(sketch_image(strings)) FROM long;
SELECT filter | filter FROM long;
RESET sketches_rattle.max_image_bytes;
SELECT (sketch_status(frequent_bigints_agg(1, 1, 262144))).max_map_size;
SELECT frequent_bigints_agg(1, 1, 524288);
SET sketches_rattle.max_frequent_bytes = '16MB';
SELECT (sketch_status(frequent_bigints_agg(1, 1, 524288))).max_map_size;
-- Strings count at most 64 bytes each for the second limit: 100 of them, and 256 slots of 44 bytes, 17664 bytes.
SET sketches_rattle.max_frequent_bytes = 17664;
SELECT (sketch_status(strings)).num_active_items FROM long;
SET sketches_rattle.max_frequent_bytes = 17663;
SELECT sketch_status(strings) FROM long;
SELECT sketch_contains(filter | filter, 7) FROM long;
RESET sketches_rattle.max_frequent_bytes;
SET sketches_rattle.max_image_bytes = 0;
SET sketches_rattle.max_image_bytes = '2GB';
SET sketches_rattle.unknown = 1;
\set VERBOSITY default
