\set VERBOSITY sqlstate

-- Weights.
SELECT frequent_strings_agg('a', -1, 64);
SELECT count_min_agg_sized(1, -1, 3, 64);
SELECT sketch_estimate(signed_count_min_agg_sized(1, -1, 3, 64), 1);
SELECT frequent_bigints_agg(i, 9223372036854775807, 64) FROM generate_series(1, 3) AS i;
SELECT count_min_agg_sized(i, 9223372036854775807, 3, 64) FROM generate_series(1, 3) AS i;
SELECT signed_count_min_agg_sized(i, -9223372036854775807, 3, 64) FROM generate_series(1, 2) AS i;
SELECT signed_count_min_agg_sized(1, (-9223372036854775807) - 1, 3, 64);
SELECT sketch_status(frequent_bigints_agg(i, 9223372036854775807, 64)) FROM generate_series(1, 2) AS i;
SELECT frequent_strings_agg('a', 1.5);

-- Images: too short, of another kind, of another version, and with a number of set bits that is wrong.
SELECT bloom_filter_from_image('\x03');
SELECT count_min_from_image(sketch_image(bloom_filter_agg_sized(1, 64, 3)));
SELECT bloom_filter_from_image(set_byte(sketch_image(bloom_filter_agg_sized(1, 64, 3)), 1, 77));
SELECT bloom_filter_from_image(set_byte(sketch_image(bloom_filter_agg_sized(1, 64, 3)), 24, 9));
SELECT frequent_strings_from_image(sketch_image(frequent_bigints_agg(255)));

-- Bytes after an image are not stored.
SELECT bloom_filter_from_image(sketch_image(bloom_filter_agg_sized(1, 64, 3)) || '\x0011') = bloom_filter_agg_sized(1, 64, 3) AS filter;
SELECT length(sketch_image(frequent_bigints_from_image(sketch_image(sketch) || '\x0011'))) = length(sketch_image(sketch)) AS bigints
FROM (SELECT frequent_bigints_agg(1) AS sketch) AS s;

-- Functions of aggregates are not for queries.
SELECT frequent_strings_add(NULL, 'a');
SELECT frequent_strings_final(NULL);
SELECT sketch_combine(NULL, NULL);
SELECT sketch_deserial('\x00', NULL) IS NULL AS is_null;

-- A sketch compares strings by their bytes.
CREATE COLLATION same_letters (provider = icu, locale = 'und-u-ks-level1', deterministic = false);
SELECT frequent_strings_agg('a' COLLATE same_letters);
SELECT sketch_contains(bloom_filter_agg_sized('a', 64, 3), 'A' COLLATE same_letters);
SELECT sketch_estimate(frequent_strings_agg('a' COLLATE "C"), 'a' COLLATE "POSIX");

-- An error leaves the function as it was before.
CREATE FUNCTION tried(filter bloom_filter, item bigint) RETURNS text LANGUAGE plpgsql AS $$
BEGIN
    RETURN sketch_contains(filter, item);
EXCEPTION WHEN SQLSTATE 'SK002' THEN
    RETURN SQLERRM;
END $$;
SELECT tried(f, 1) FROM (SELECT bloom_filter_agg_sized(1, 64, 3) AS f UNION ALL SELECT bloom_filter_agg_sized('1', 64, 3)
    UNION ALL SELECT bloom_filter_agg_sized(1, 64, 3)) AS f;
\set VERBOSITY default
