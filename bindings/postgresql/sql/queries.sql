CREATE TABLE days (day integer, pages frequent_strings, visitors frequent_bigints, seconds count_min, refunds signed_count_min,
    seen bloom_filter);
INSERT INTO days
SELECT i / 100, frequent_strings_agg('page ' || i % 100), frequent_bigints_agg(i), count_min_agg_sized('page ' || i % 100, i, 4, 1024),
    signed_count_min_agg_sized(i, -i, 4, 1024), bloom_filter_agg(i, 100, 0.001)
FROM generate_series(100, 399) AS i GROUP BY i / 100;

-- Bounds, estimates and rows.
SELECT day, sketch_lower_bound(pages, 'page 7'), sketch_estimate(pages, 'page 7'), sketch_upper_bound(pages, 'page 7'), sketch_bounds(pages, 'no page')
FROM days ORDER BY day;
SELECT day, sketch_lower_bound(visitors, 207), sketch_estimate(visitors, 207), sketch_upper_bound(visitors, 207), sketch_bounds(visitors, 207)
FROM days ORDER BY day;
SELECT day, (sketch_bounds(pages, 'page 7')).*, (sketch_bounds(visitors, day * 100)).upper_bound FROM days ORDER BY day;
SELECT day, sketch_estimate(seconds, 'page 7'), sketch_upper_bound(seconds, 'page 7') - sketch_estimate(seconds, 'page 7') AS margin,
    floor(2.718281828459045 * (sketch_status(seconds)).total_weight / 1024) AS margin_by_formula,
    sketch_estimate(refunds, 207), sketch_upper_bound(refunds, 207) >= sketch_estimate(refunds, 207) AS above
FROM days ORDER BY day;
SELECT day, sketch_contains(seen, 107) AS is_first, sketch_contains(seen, 207) AS is_second, sketch_contains(seen, 307) AS is_third
FROM days ORDER BY day;

-- Rows come in descending order of estimates.
CREATE TABLE words AS
SELECT frequent_strings_agg(word, weight) AS strings, frequent_bigints_agg(length(word)::bigint, weight) AS bigints
FROM (VALUES ('be', 2), ('or', 1), ('not', 4), ('to', 9), ('question', 3), (E'\u00fc\u4e2d', 7)) AS v(word, weight);
SELECT f.* FROM words, frequent_rows(strings) AS f;
SELECT f.* FROM words, frequent_rows(strings, 'no_false_positives') AS f;
SELECT f.* FROM words, frequent_rows(strings, 'no_false_negatives', 3) AS f;
SELECT f.* FROM words, frequent_rows(bigints, threshold => 8) AS f;
SELECT (frequent_rows(strings)).item FROM words LIMIT 2;

-- At most some rows. Those of equal estimates come in the order of their items.
SELECT f.* FROM words, frequent_rows(strings, 2) AS f;
SELECT f.item FROM words, frequent_rows(bigints, max_rows => 2) AS f;
SELECT count(*) FROM words, frequent_rows(strings, 100) AS f;
SELECT count(*) FROM words, frequent_rows(strings, 0) AS f;
SELECT string_agg(f.item, ' ') AS items FROM (SELECT frequent_strings_agg(w) AS s FROM (VALUES ('ab'), ('b'), (''), ('a'), ('aa')) AS v(w)) AS t, frequent_rows(s, 4) AS f;
SELECT array_agg(f.item) AS items FROM (SELECT frequent_bigints_agg(w) AS s FROM (VALUES (3), (-9223372036854775808), (9223372036854775807), (0), (-5)) AS v(w)) AS t, frequent_rows(s) AS f;

-- Results of rows have types, so views and tables have them as columns.
CREATE VIEW reports AS SELECT sketch_status(pages) AS pages, sketch_status(seconds) AS seconds, sketch_status(seen) AS seen,
    sketch_bounds(pages, 'page 7') AS bounds, frequent_rows(pages, 1) AS top
FROM days WHERE day = 2;
CREATE TABLE kept_reports AS SELECT * FROM reports;
SELECT (pages).total_weight, (seconds).num_buckets, (seen).capacity, (bounds).estimate, (top).lower_bound FROM kept_reports;
SELECT pg_typeof(pages), pg_typeof(seconds), pg_typeof(seen), pg_typeof(bounds), pg_typeof(top) FROM reports;
SELECT count(*) FROM frequent_rows(NULL::frequent_strings);

-- With an error, rows of one mode have no false negatives, and rows of the other mode no false positives.
CREATE TABLE stream AS SELECT (i % (i % 37 + 1))::bigint AS item FROM generate_series(1, 20000) AS i;
CREATE TABLE small AS SELECT frequent_bigints_agg(item, 1, 16) AS sketch FROM stream;
CREATE VIEW exact AS SELECT item, count(*) AS rows FROM stream GROUP BY item;
SELECT (sketch_status(sketch)).maximum_error > 0 AS has_error, (sketch_status(sketch)).num_active_items <= 12 AS has_few FROM small;
SELECT bool_and(e.item IN (SELECT (frequent_rows(sketch, 'no_false_negatives')).item FROM small)) AS all_found
FROM exact AS e WHERE e.rows > (SELECT (sketch_status(sketch)).maximum_error FROM small);
SELECT coalesce(bool_and(e.rows > (sketch_status(s.sketch)).maximum_error), true) AS all_frequent
FROM small AS s, frequent_rows(s.sketch, 'no_false_positives') AS f JOIN exact AS e ON e.item = f.item;

-- Status. A filter of 100 items, 10 hashes and 1472 bits has about 1472 * (1 - exp(-1000 / 1472)) = 726 set bits.
SELECT (sketch_status(strings)).*, (sketch_status(bigints)).num_active_items FROM words;
SELECT day, (sketch_status(seconds)).*, (sketch_status(refunds)).total_weight FROM days ORDER BY day;
SELECT day, (sketch_status(seen)).capacity, (sketch_status(seen)).num_hashes, (sketch_status(seen)).bits_used BETWEEN 650 AND 800 AS has_bits,
    (sketch_status(seen)).seed, (sketch_status(seen)).items FROM days ORDER BY day;

-- A question has items of the sketch's type.
\set VERBOSITY sqlstate
SELECT sketch_contains(seen, 'page 7') FROM days;
SELECT sketch_estimate(seconds, 7) FROM days;
SELECT sketch_estimate(refunds, 'page 7') FROM days;
SELECT sketch_estimate(pages, 7) FROM days;
SELECT frequent_rows(strings, 'all') FROM words;
SELECT frequent_rows(strings, 'no_false_positives', -1) FROM words;
SELECT frequent_rows(strings, -1) FROM words;
\set VERBOSITY default
SELECT sketch_contains(bloom_filter_from_image(sketch_image(seen)), 207), sketch_contains(bloom_filter_from_image(sketch_image(seen)), '207')
FROM days WHERE day = 2;
SELECT sketch_contains(seen, NULL::bigint) IS NULL AS no_item, sketch_contains(NULL, 7) IS NULL AS no_filter FROM days WHERE day = 2;

-- A function that keeps sketches from row to row uses the sketch of its row: in a nested loop over more sketches than are kept at first, and
-- for parameters.
CREATE TABLE filters AS
SELECT part, bloom_filter_agg_sized(i, 20000, 5) AS filter, count_min_agg_sized(i, part + 1, 2, 2000) AS counts
FROM generate_series(0, 999) AS i, LATERAL (SELECT i % 40 AS part) AS p GROUP BY part;
SET enable_hashjoin = off;
SET enable_mergejoin = off;
SELECT count(*) AS pairs, bool_and(sketch_contains(f.filter, i)) FILTER (WHERE i % 40 = f.part) AS all_found,
    bool_and(sketch_estimate(f.counts, i) >= f.part + 1) FILTER (WHERE i % 40 = f.part) AS all_counted,
    count(*) FILTER (WHERE sketch_contains(f.filter, i) AND i % 40 <> f.part) < 390 AS few_false_positives,
    count(*) FILTER (WHERE sketch_estimate(f.counts, i) > 0 AND i % 40 <> f.part) < 390 AS few_others_counted
FROM generate_series(0::bigint, 999) AS i, filters AS f;
RESET enable_hashjoin;
RESET enable_mergejoin;
DO $$
DECLARE
    filter bloom_filter;
    number integer;
    wrong integer := 0;
BEGIN
    FOR round IN 1 .. 3 LOOP
        FOR number, filter IN SELECT f.part, f.filter FROM filters AS f ORDER BY part LOOP
            FOR i IN 0 .. 9 LOOP
                IF NOT sketch_contains(filter, 40 * ((10 * round + i) % 25) + number) THEN wrong := wrong + 1; END IF;
            END LOOP;
        END LOOP;
    END LOOP;
    RAISE NOTICE 'wrong: %', wrong;
END $$;
WITH built AS MATERIALIZED (SELECT bloom_filter_agg(i * 2, 50000, 0.001) AS even FROM generate_series(1, 50000) AS i)
SELECT count(*) FILTER (WHERE i % 2 = 0) AS even, count(*) FILTER (WHERE i % 2 = 1) < 150 AS few_odd
FROM generate_series(1, 100000) AS i WHERE sketch_contains((SELECT even FROM built), i);
