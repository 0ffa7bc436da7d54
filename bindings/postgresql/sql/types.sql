CREATE EXTENSION sketches_rattle;
CREATE TABLE sketches (strings frequent_strings, bigints frequent_bigints, counts count_min, signed_counts signed_count_min,
    filter bloom_filter);
INSERT INTO sketches
SELECT frequent_strings_agg('item ' || i % 5), frequent_bigints_agg(i % 5), count_min_agg_sized(i % 5, 2, 3, 64),
    signed_count_min_agg_sized('item ' || i % 5, -1, 3, 64), bloom_filter_agg_sized(i, 1024, 5)
FROM generate_series(1, 100) AS i;

-- The text form and the bytea form keep a sketch.
SELECT strings::text::frequent_strings::text = strings::text AS strings,
    bigints::text::frequent_bigints::text = bigints::text AS bigints,
    counts::text::count_min = counts AS counts,
    signed_counts::text::signed_count_min = signed_counts AS signed_counts,
    filter::text::bloom_filter = filter AS filter
FROM sketches;
SELECT strings::bytea::frequent_strings::text = strings::text AS strings,
    bigints::bytea::frequent_bigints::text = bigints::text AS bigints,
    counts::bytea::count_min = counts AS counts,
    signed_counts::bytea::signed_count_min = signed_counts AS signed_counts,
    filter::bytea::bloom_filter = filter AS filter
FROM sketches;

-- The binary form is the bytea form. It begins with SKR, 1, the kind and the types of items.
SELECT frequent_strings_send(strings) = strings::bytea AND frequent_bigints_send(bigints) = bigints::bytea
    AND count_min_send(counts) = counts::bytea AND signed_count_min_send(signed_counts) = signed_counts::bytea
    AND bloom_filter_send(filter) = filter::bytea AS are_bytea,
    substr(strings::bytea, 1, 6) AS strings, substr(bigints::bytea, 1, 6) AS bigints, substr(counts::bytea, 1, 6) AS counts,
    substr(signed_counts::bytea, 1, 6) AS signed_counts, substr(filter::bytea, 1, 6) AS filter
FROM sketches;

-- An image is what follows the header of 20 bytes. The other interfaces read and write it.
SELECT sketch_image(strings) = substr(strings::bytea, 21) AND sketch_image(bigints) = substr(bigints::bytea, 21)
    AND sketch_image(counts) = substr(counts::bytea, 21) AND sketch_image(signed_counts) = substr(signed_counts::bytea, 21)
    AND sketch_image(filter) = substr(filter::bytea, 21) AS are_images
FROM sketches;
SELECT sketch_bounds(frequent_strings_from_image(sketch_image(strings)), 'item 3') AS strings,
    sketch_bounds(frequent_bigints_from_image(sketch_image(bigints)), 3) AS bigints,
    count_min_from_image(sketch_image(counts)) = counts AS counts,
    signed_count_min_from_image(sketch_image(signed_counts)) = signed_counts AS signed_counts,
    bloom_filter_from_image(sketch_image(filter)) = filter AS filter
FROM sketches;

-- The image of a filter or of counts does not say the type of its items.
SELECT (sketch_status(counts)).items, (sketch_status(count_min_from_image(sketch_image(counts)))).items,
    (sketch_status(signed_counts)).items, (sketch_status(filter)).items, (sketch_status(bloom_filter_from_image(sketch_image(filter)))).items
FROM sketches;

-- An image that was written by hand: 3 longs, version 1, family 21, empty, 3 hashes, seed 9001, 1 word.
SELECT sketch_status(bloom_filter_from_image('\x030115040300000029230000000000000100000000000000'));

-- A sketch is of one type only.
\set VERBOSITY sqlstate
SELECT strings::bytea::frequent_bigints FROM sketches;
SELECT bigints::bytea::frequent_strings FROM sketches;
SELECT counts::bytea::signed_count_min FROM sketches;
SELECT signed_counts::bytea::count_min FROM sketches;
SELECT filter::bytea::count_min FROM sketches;
SELECT (strings::text)::bloom_filter FROM sketches;
SELECT strings::frequent_bigints FROM sketches;
SELECT strings = strings FROM sketches;
SELECT ''::bloom_filter;
SELECT '!'::bloom_filter;
SELECT 'U0tSAQ=='::bloom_filter;
SELECT ''::bytea::bloom_filter;
SELECT bloom_filter_from_image('');
\set VERBOSITY default

-- No sketch with a turned bit is read.
CREATE FUNCTION turned(sketch bytea, type text, OUT bits bigint, OUT rejected bigint) LANGUAGE plpgsql AS $$
BEGIN
    bits := 8 * length(sketch);
    rejected := 0;
    FOR i IN 0 .. bits - 1 LOOP
        BEGIN
            EXECUTE format('SELECT ($1)::%s', type) USING set_bit(sketch, i, 1 - get_bit(sketch, i));
        EXCEPTION WHEN SQLSTATE 'SK001' OR invalid_binary_representation THEN
            rejected := rejected + 1;
        END;
    END LOOP;
END $$;
SELECT type, bits > 0 AS has_bits, bits - rejected AS accepted
FROM sketches, LATERAL (VALUES ('frequent_strings', strings::bytea), ('frequent_bigints', bigints::bytea),
    ('count_min', counts::bytea), ('signed_count_min', signed_counts::bytea), ('bloom_filter', filter::bytea)) AS s(type, sketch),
    LATERAL turned(sketch, type);
