-- Empty sketches have the sizes of those that aggregates make, so they merge with them.
CREATE TABLE items AS SELECT 'item ' || i AS string, i AS number, i % 4 AS weight FROM generate_series(1::bigint, 20) AS i;
SELECT bloom_filter_empty(1000, 0.01) | bloom_filter_agg(string, 1000, 0.01) = bloom_filter_agg(string, 1000, 0.01) AS filter,
    bloom_filter_empty_sized(640, 5) | bloom_filter_agg_sized(number, 640, 5) = bloom_filter_agg_sized(number, 640, 5) AS sized_filter,
    count_min_empty(0.01, 0.99) | count_min_agg(string, 0.01, 0.99) = count_min_agg(string, 0.01, 0.99) AS counts,
    count_min_empty_sized(3, 64) | count_min_agg_sized(number, 3, 64) = count_min_agg_sized(number, 3, 64) AS sized_counts,
    signed_count_min_empty(0.01, 0.99) | signed_count_min_agg(string, 0.01, 0.99) = signed_count_min_agg(string, 0.01, 0.99) AS signed,
    signed_count_min_empty_sized(3, 64) | signed_count_min_agg_sized(number, 3, 64) = signed_count_min_agg_sized(number, 3, 64)
        AS sized_signed
FROM items;
SELECT (sketch_status(frequent_strings_empty())).max_map_size, (sketch_status(frequent_bigints_empty(64))).max_map_size,
    (sketch_status(frequent_strings_empty(0.01))).max_map_size = (SELECT (sketch_status(frequent_strings_agg(string, 1, 0.01))).max_map_size
        FROM items) AS by_error,
    (sketch_status(frequent_bigints_empty())).total_weight;

-- An empty filter or count takes items of both types. The first item decides, also of a merge.
SELECT (sketch_status(filter)).items AS filter, (sketch_status(counts)).items AS counts, sketch_contains(filter, 'a') AS string,
    sketch_contains(filter, 1) AS bigint, sketch_estimate(counts, 'a') AS of_string, sketch_estimate(counts, 1) AS of_bigint,
    (sketch_status(sketch_add(filter, 'a'))).items AS a_string, (sketch_status(sketch_add(filter, 1))).items AS a_bigint,
    (sketch_status(filter | sketch_add(filter, 'a'))).items AS merged, (sketch_status(filter | filter)).items AS of_empty,
    (sketch_status(filter & sketch_add(filter, 1))).items AS common, (sketch_status(sketch_add(filter, 1) - filter)).items AS left
FROM (SELECT bloom_filter_empty(10, 0.1) AS filter, count_min_empty(0.1, 0.9) AS counts) AS e;
SELECT (sketch_status(bloom_filter_union(filter))).items, (sketch_status(count_min_union(counts))).items
FROM (VALUES (bloom_filter_empty_sized(64, 3), count_min_empty_sized(3, 64)),
    (sketch_add(bloom_filter_empty_sized(64, 3), 7), sketch_add(count_min_empty_sized(3, 64), 'a'))) AS v(filter, counts);
SELECT filter::text::bloom_filter = filter AS text, filter::bytea::bloom_filter = filter AS bytea,
    (sketch_status(filter::text::bloom_filter)).items, (sketch_status(counts::bytea::signed_count_min)).items
FROM (SELECT bloom_filter_empty(10, 0.1) AS filter, signed_count_min_empty(0.1, 0.9) AS counts) AS e;

-- Items that are added one by one make the sketch that the aggregate makes.
CREATE TABLE grown AS SELECT frequent_strings_empty(64) AS strings, frequent_bigints_empty(64) AS bigints,
    count_min_empty_sized(4, 1024) AS counts, count_min_empty_sized(4, 1024) AS numbers, signed_count_min_empty_sized(4, 1024) AS signed,
    signed_count_min_empty_sized(4, 1024) AS signed_strings, bloom_filter_empty_sized(640, 5) AS filter,
    bloom_filter_empty_sized(640, 5) AS filter_numbers;
DO $$
DECLARE
    i items;
BEGIN
    FOR i IN SELECT * FROM items LOOP
        UPDATE grown SET strings = sketch_add(strings, i.string, i.weight), bigints = sketch_add(bigints, i.number),
            counts = sketch_add(counts, i.string, i.weight), numbers = sketch_add(numbers, i.number),
            signed = sketch_add(signed, i.number, -i.weight), signed_strings = sketch_add(signed_strings, i.string),
            filter = sketch_add(filter, i.string), filter_numbers = sketch_add(filter_numbers, i.number);
    END LOOP;
END $$;
SELECT g.counts = a.counts AS counts, g.numbers = a.numbers AS numbers, g.signed = a.signed AS signed,
    g.signed_strings = a.signed_strings AS signed_strings, g.filter = a.filter AS filter, g.filter_numbers = a.filter_numbers AS filter_numbers
FROM grown AS g, (SELECT count_min_agg_sized(string, weight, 4, 1024) AS counts, count_min_agg_sized(number, 4, 1024) AS numbers,
    signed_count_min_agg_sized(number, -weight, 4, 1024) AS signed, signed_count_min_agg_sized(string, 4, 1024) AS signed_strings,
    bloom_filter_agg_sized(string, 640, 5) AS filter, bloom_filter_agg_sized(number, 640, 5) AS filter_numbers FROM items) AS a;
SELECT count(*) AS items, bool_and(sketch_bounds(strings, string) = (weight, weight, weight)) AS strings,
    bool_and(sketch_bounds(bigints, number) = (1::bigint, 1::bigint, 1::bigint)) AS bigints
FROM grown, items;

-- A sketch takes more items of its type alone. One from an image takes both.
SELECT sketch_contains(sketch_add(bloom_filter_from_image(sketch_image(filter)), 7), 7) AS added FROM grown;
SELECT sketch_add(filter, NULL::text) IS NULL AS no_item, sketch_add(counts, 'a', NULL) IS NULL AS no_weight,
    sketch_add(NULL::count_min, 'a') IS NULL AS no_sketch FROM grown;
\set VERBOSITY sqlstate
SELECT sketch_add(filter, 7) FROM grown;
SELECT sketch_add(filter_numbers, '7') FROM grown;
SELECT sketch_add(counts, 7) FROM grown;
SELECT sketch_add(signed, '7') FROM grown;
SELECT sketch_add(bigints, 'item 7'::text) FROM grown;
SELECT sketch_add(strings, 7) FROM grown;
SELECT sketch_add(counts, 'a', -1) FROM grown;
SELECT sketch_add(strings, 'a', -1) FROM grown;
SELECT sketch_add(sketch_add(signed, 1, 9223372036854775807), 1, 1) FROM grown;
SELECT sketch_add(counts, 'a' COLLATE same_letters) FROM grown;

-- Sizes of empty sketches are checked.
SELECT bloom_filter_empty(1000, 1);
SELECT bloom_filter_empty(0, 0.1);
SELECT bloom_filter_empty_sized(0, 3);
SELECT count_min_empty(3, 64);
SELECT count_min_empty_sized(256, 64);
SELECT signed_count_min_empty(0.1, 1);
SELECT frequent_strings_empty(100);
SELECT frequent_bigints_empty(0.0);
SET sketches_rattle.max_image_bytes = '64kB';
SELECT bloom_filter_empty_sized(1000000, 3);
SELECT sketch_add(frequent_strings_empty(8), repeat('x', 70000));
SELECT (sketch_status(sketch_add(frequent_strings_empty(8), repeat('x', 60000)))).total_weight;
RESET sketches_rattle.max_image_bytes;

-- A header without items is only that of an empty sketch.
SELECT set_byte(filter::bytea, 5, 0)::bloom_filter FROM grown;
SELECT set_byte(counts::bytea, 5, 0)::count_min FROM grown;
SELECT set_byte(bigints::bytea, 5, 0)::frequent_bigints FROM grown;
\set VERBOSITY default
SELECT type, bits > 0 AS has_bits, bits - rejected AS accepted
FROM (VALUES ('bloom_filter', bloom_filter_empty(10, 0.1)::bytea), ('count_min', count_min_empty(0.1, 0.9)::bytea),
    ('frequent_strings', frequent_strings_empty()::bytea)) AS s(type, sketch), LATERAL turned(sketch, type);
SELECT bloom_filter_empty(10, NULL) IS NULL AS no_rate, frequent_strings_empty(NULL::integer) IS NULL AS no_size;

-- Half of each weight, and a share of it, rounded down.
SELECT weight, sketch_estimate(sketch_halve(counts), 'a') AS half, sketch_estimate(sketch_halve(sketch_halve(counts)), 'a') AS quarter,
    sketch_estimate(sketch_decay(counts, 99, 100), 'a') AS decayed, sketch_decay(counts, 1, 1) = counts AS whole,
    (sketch_status(sketch_halve(counts))).total_weight, (sketch_status(sketch_halve(counts))).items
FROM (VALUES (1), (7), (100)) AS v(weight), LATERAL (SELECT sketch_add(count_min_empty_sized(3, 64), 'a', weight) AS counts) AS c;
SELECT sketch_estimate(sketch_halve(recent) | sketch_add(count_min_empty_sized(3, 64), 'a', 5), 'a') AS recent
FROM (SELECT sketch_add(count_min_empty_sized(3, 64), 'a', 9) AS recent) AS r;
\set VERBOSITY terse
SELECT sketch_decay(counts, 0, 1) FROM grown;
SELECT sketch_decay(counts, 3, 2) FROM grown;
SELECT sketch_decay(counts, 1, 0) FROM grown;
SELECT sketch_decay(counts, -1, -2) FROM grown;
\set VERBOSITY sqlstate
SELECT sketch_decay(counts, 3, 2) FROM grown;
SELECT sketch_halve(signed) FROM grown;
\set VERBOSITY default

-- A difference contains no item of the second filter, and nothing that the first one did not contain. It may lose items.
CREATE TABLE pairs AS SELECT bits, bloom_filter_agg_sized(i, bits, 3) FILTER (WHERE i <= 20) AS first,
    bloom_filter_agg_sized(i, bits, 3) FILTER (WHERE i > 15) AS second
FROM (VALUES (64), (100000)) AS v(bits), generate_series(1::bigint, 40) AS i GROUP BY bits;
SELECT bits, count(*) FILTER (WHERE i BETWEEN 16 AND 40 AND sketch_contains(first - second, i)) AS of_second,
    count(*) FILTER (WHERE sketch_contains(first - second, i) AND NOT sketch_contains(first, i)) AS new,
    count(*) FILTER (WHERE i <= 15 AND sketch_contains(first - second, i)) = 15 AS keeps_all,
    bool_and(first - second = sketch_difference(first, second)) AS by_name,
    bool_and(first - first = bloom_filter_empty_sized(bits, 3)) AS nothing, bool_and(first - bloom_filter_empty_sized(bits, 3) = first) AS all
FROM pairs, generate_series(1::bigint, 1000) AS i GROUP BY bits ORDER BY bits;
\set VERBOSITY sqlstate
SELECT filter - filter_numbers FROM grown;
SELECT filter - bloom_filter_empty_sized(640, 6) FROM grown;
\set VERBOSITY default

-- A reset leaves the sizes, the seed and no items.
SELECT sketch_reset(counts) = count_min_empty_sized(4, 1024) AS counts, sketch_reset(signed) = signed_count_min_empty_sized(4, 1024) AS signed,
    sketch_reset(filter) = bloom_filter_empty_sized(640, 5) AS filter, sketch_reset(strings)::text = frequent_strings_empty(64)::text AS strings,
    sketch_reset(bigints)::text = frequent_bigints_empty(64)::text AS bigints, sketch_reset(counts) | counts = counts AS merged,
    (sketch_status(sketch_reset(filter))).items, (sketch_status(sketch_add(sketch_reset(filter), 7))).items AS added
FROM grown;
UPDATE grown SET filter = sketch_reset(filter), strings = sketch_reset(strings);
SELECT sketch_contains(filter, 'item 1'), (sketch_status(strings)).total_weight, (sketch_status(strings)).max_map_size FROM grown;
