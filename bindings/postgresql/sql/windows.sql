-- A frame that moves has the sketch of its rows, with their total: compared with an aggregate of each frame. Some rows are ignored, and
-- some frames have no others.
CREATE TABLE moves AS
SELECT i, i / 40 AS part, CASE WHEN i % 11 > 0 AND i NOT BETWEEN 60 AND 80 THEN 'item ' || i % 5 END AS item, i % 7 AS number,
    CASE WHEN i % 13 > 0 THEN i * 7919 % 9 - 4 END AS weight
FROM generate_series(1::bigint, 200) AS i;
CREATE FUNCTION compared(one text, rest text, OUT frames bigint, OUT without_rows bigint, OUT different bigint) LANGUAGE plpgsql AS $$
BEGIN
    EXECUTE format('SELECT count(*), count(*) - count(moved), count(*) FILTER (WHERE moved::bytea IS DISTINCT FROM whole::bytea)
        FROM (SELECT m.*, %1$s OVER (ORDER BY i ROWS BETWEEN 6 PRECEDING AND 2 FOLLOWING) AS moved FROM moves AS m) AS m,
        LATERAL (SELECT %1$s AS whole FROM moves AS r WHERE r.i BETWEEN m.i - 6 AND m.i + 2) AS w', one || rest)
    INTO frames, without_rows, different;
END $$;
SELECT aggregate, arguments, c.* FROM (VALUES ('signed_count_min_agg', 'item, weight, 0.1, 0.9'), ('signed_count_min_agg', 'item, 0.1, 0.9'),
    ('signed_count_min_agg', 'number, weight, 0.1, 0.9'), ('signed_count_min_agg', 'number, 0.1, 0.9'),
    ('signed_count_min_agg_sized', 'item, weight::numeric, 3, 64'), ('signed_count_min_agg_sized', 'item, 3, 64'),
    ('signed_count_min_agg_sized', 'number, weight::integer, 3, 64'), ('signed_count_min_agg_sized', 'number, 3, 64'),
    ('count_min_agg_sized', 'item, abs(weight), 3, 64')) AS v(aggregate, arguments),
    LATERAL compared(aggregate, '(' || arguments || ')') AS c;
SELECT * FROM compared('signed_count_min_agg_sized(item, weight, 3, 64)', ' FILTER (WHERE number > 1)');

-- Frames by values and groups, in partitions, with rows left out.
SELECT count(*) FILTER (WHERE by_values::bytea IS DISTINCT FROM (SELECT signed_count_min_agg_sized(item, weight, 3, 64)::bytea
        FROM moves AS r WHERE r.part = m.part AND r.number BETWEEN m.number - 2 AND m.number)) AS by_values,
    count(*) FILTER (WHERE by_groups::bytea IS DISTINCT FROM (SELECT signed_count_min_agg_sized(item, weight, 3, 64)::bytea
        FROM moves AS r WHERE r.part = m.part AND r.number BETWEEN m.number - 1 AND m.number + 1 AND r.i <> m.i)) AS by_groups
FROM (SELECT m.*, signed_count_min_agg_sized(item, weight, 3, 64) OVER (w RANGE 2 PRECEDING) AS by_values,
        signed_count_min_agg_sized(item, weight, 3, 64) OVER (w GROUPS BETWEEN 1 PRECEDING AND 1 FOLLOWING EXCLUDE CURRENT ROW) AS by_groups
    FROM moves AS m WINDOW w AS (PARTITION BY part ORDER BY number)) AS m;

-- The library's total counts the rows that left too. An overflow of it alone is no error.
CREATE TABLE heavy AS SELECT * FROM (VALUES (1, 1::bigint), (2, 2305843009213693952), (3, 1), (4, 1), (5, 9223372036854775797), (6, 1),
    (7, -5), (8, -9223372036854775000), (9, 0), (10, 0), (11, 4611686018427387903), (12, -4611686018427387904)) AS v(i, weight);
SELECT i, (sketch_status(moved)).total_weight, moved = whole AS is_whole
FROM (SELECT i, signed_count_min_agg_sized(i % 3, weight, 3, 64) OVER (ORDER BY i ROWS 1 PRECEDING) AS moved FROM heavy) AS m,
    LATERAL (SELECT signed_count_min_agg_sized(r.i % 3, weight, 3, 64) AS whole FROM heavy AS r WHERE r.i BETWEEN m.i - 1 AND m.i) AS w;
\set VERBOSITY sqlstate
SELECT signed_count_min_agg_sized(i, 4611686018427387904, 3, 64) OVER (ORDER BY i ROWS 1 PRECEDING) FROM generate_series(1, 3) AS i;
SELECT signed_count_min_agg_sized(i, (-9223372036854775807) - 1, 3, 64) OVER (ORDER BY i ROWS 1 PRECEDING) FROM generate_series(1, 3) AS i;

-- Sizes differ within a frame, or between frames that have no row in common.
SELECT signed_count_min_agg_sized(i, 1, 3, 64 + i) OVER (ORDER BY i ROWS 1 PRECEDING) FROM generate_series(1, 3) AS i;
\set VERBOSITY default
SELECT i, (sketch_status(signed_count_min_agg_sized(item, 1, 3, size) OVER (ORDER BY i ROWS 1 PRECEDING))).num_buckets
FROM (VALUES (1, 'a', 64), (2, NULL, NULL), (3, 'a', 65), (4, NULL, 66)) AS v(i, item, size);

-- A long frame.
SELECT count(s) AS frames, sum((sketch_status(s)).total_weight) AS rows_of_all, min(sketch_estimate(s, 0)) FILTER (WHERE i > 300) AS least
FROM (SELECT i, signed_count_min_agg_sized(i % 10, 3, 64) OVER (ORDER BY i ROWS 299 PRECEDING) AS s
    FROM generate_series(1::bigint, 1000) AS i) AS frames;
