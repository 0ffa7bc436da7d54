CREATE TABLE sets AS
SELECT name, frequent_strings_agg('item ' || i) AS strings, frequent_bigints_agg(i) AS bigints,
    count_min_agg_sized(i, 1, 4, 1024) AS counts, signed_count_min_agg_sized(i, -1, 4, 1024) AS signed_counts,
    bloom_filter_agg_sized(i, 10000, 7) AS filter
FROM (VALUES ('low', 1, 60), ('high', 41, 100), ('all', 1, 100)) AS v(name, first, last), generate_series(first, last) AS i
GROUP BY name;

-- The union of two sketches.
SELECT (sketch_status(a.strings | b.strings)).total_weight, (sketch_status(a.bigints | b.bigints)).num_active_items,
    sketch_estimate(a.strings | b.strings, 'item 50'), sketch_estimate(a.bigints | b.bigints, 1), sketch_estimate(a.counts | b.counts, 50),
    sketch_estimate(a.signed_counts | b.signed_counts, 50), a.filter | b.filter = c.filter AS is_all,
    sketch_union(a.filter, b.filter) = a.filter | b.filter AS is_union
FROM sets AS a, sets AS b, sets AS c WHERE a.name = 'low' AND b.name = 'high' AND c.name = 'all';

-- A null is no sketch: the union is the other one, also in an upsert.
SELECT (NULL | filter) = filter AS right_one, (filter | NULL) = filter AS left_one, (NULL::bloom_filter | NULL) IS NULL AS neither,
    sketch_union(NULL, counts) = counts AS by_name
FROM sets WHERE name = 'low';
CREATE TABLE totals (day integer PRIMARY KEY, filter bloom_filter, strings frequent_strings);
INSERT INTO totals VALUES (1, NULL, NULL);
INSERT INTO totals SELECT 1, filter, strings FROM sets WHERE name = 'low'
ON CONFLICT (day) DO UPDATE SET filter = totals.filter | excluded.filter, strings = totals.strings | excluded.strings;
INSERT INTO totals SELECT 1, filter, strings FROM sets WHERE name = 'high'
ON CONFLICT (day) DO UPDATE SET filter = totals.filter | excluded.filter, strings = totals.strings | excluded.strings;
SELECT filter = (SELECT filter FROM sets WHERE name = 'all') AS filter, (sketch_status(strings)).total_weight FROM totals;

-- A union of frequent items of unlike sizes has the larger size, in any order of rows, and within the limits.
CREATE TABLE unlike AS
SELECT size, frequent_strings_agg('item ' || i, 1, size) AS strings, frequent_bigints_agg(i, 1, size) AS bigints
FROM (VALUES (16), (1024), (64), (256), (8)) AS v(size), generate_series(1, 200) AS i GROUP BY size;
SELECT (sketch_status(frequent_strings_union(strings ORDER BY size))).max_map_size AS up,
    (sketch_status(frequent_strings_union(strings ORDER BY size DESC))).max_map_size AS down,
    (sketch_status(frequent_bigints_union(bigints ORDER BY size % 100))).max_map_size AS mixed,
    (sketch_status(frequent_bigints_union(bigints))).total_weight
FROM unlike;
SELECT (sketch_status(a.strings | b.strings)).max_map_size AS small_first, (sketch_status(b.strings | a.strings)).max_map_size AS large_first,
    (sketch_status(a.bigints | b.bigints)).max_map_size AS bigints, (sketch_status(a.strings | b.strings)).total_weight
FROM unlike AS a, unlike AS b WHERE a.size = 16 AND b.size = 1024;
CREATE TABLE short AS SELECT size, frequent_strings_agg('a', 1, size) AS strings FROM (VALUES (16), (256), (1024), (2048)) AS v(size) GROUP BY size;
SET sketches_rattle.max_frequent_bytes = 20000;
SELECT a.size, b.size, (sketch_status(a.strings | b.strings)).max_map_size FROM short AS a, short AS b WHERE a.size <> b.size ORDER BY 1, 2;
SELECT (sketch_status(frequent_strings_union(strings ORDER BY size))).max_map_size AS up,
    (sketch_status(frequent_strings_union(strings ORDER BY size DESC))).max_map_size AS down FROM short;
RESET sketches_rattle.max_frequent_bytes;

-- The intersection of two filters contains what both contain.
SELECT bool_and(sketch_contains(a.filter & b.filter, i)) AS contained,
    bool_and(sketch_contains(sketch_intersection(a.filter, b.filter), i)) AS by_name
FROM sets AS a, sets AS b, generate_series(41, 60) AS i WHERE a.name = 'low' AND b.name = 'high';

-- Filters and counts are equal if their states are.
SELECT a.name, b.name, a.filter = b.filter AS filters, a.filter <> b.filter AS not_filters, a.counts = b.counts AS counts,
    a.counts <> b.counts AS not_counts, a.signed_counts = b.signed_counts AS signed_counts,
    a.signed_counts <> b.signed_counts AS not_signed_counts
FROM sets AS a, sets AS b WHERE a.name <= b.name ORDER BY a.name, b.name;
INSERT INTO sets SELECT 'also ' || name, strings, bigints, counts, signed_counts, filter FROM sets;
SELECT count(*) AS rows, count(DISTINCT name) AS names, (SELECT count(*) FROM (SELECT DISTINCT filter FROM sets) AS s) AS filters,
    (SELECT count(*) FROM (SELECT counts FROM sets GROUP BY counts) AS s) AS counts,
    (SELECT count(*) FROM (SELECT signed_counts FROM sets GROUP BY signed_counts) AS s) AS signed_counts
FROM sets;
SELECT a.name, b.name FROM sets AS a JOIN sets AS b ON a.filter = b.filter AND a.name < b.name ORDER BY a.name;

-- A union of filters of strings and of bigints has both. Their intersection has neither.
SELECT (sketch_status(strings | bigints)).items, sketch_contains(strings | bigints, 'a') AS string, sketch_contains(strings | bigints, 2) AS bigint,
    (sketch_status((strings | bigints) & strings)).items AS intersection
FROM (SELECT bloom_filter_agg_sized(string, 1000, 5) AS strings, bloom_filter_agg_sized(number, 1000, 5) AS bigints
    FROM (VALUES ('a', 1), ('b', 2)) AS v(string, number)) AS f;
SELECT (sketch_status(strings | bigints)).items, (sketch_status(strings | bigints)).total_weight
FROM (SELECT count_min_agg_sized(string, 1, 3, 64) AS strings, count_min_agg_sized(number, 1, 3, 64) AS bigints
    FROM (VALUES ('a', 1), ('b', 2)) AS v(string, number)) AS f;

\set VERBOSITY sqlstate
SELECT bloom_filter_agg_sized('a', 1000, 5) & bloom_filter_agg_sized(1, 1000, 5);
SELECT bloom_filter_agg_sized('a', 1000, 5) | bloom_filter_agg_sized('a', 1000, 6);
SELECT bloom_filter_agg_sized('a', 1000, 5) & bloom_filter_agg_sized('a', 2000, 5);
SELECT count_min_agg_sized('a', 1, 3, 64) | count_min_agg_sized('a', 1, 3, 65);
SELECT signed_count_min_agg_sized('a', 1, 3, 64) | signed_count_min_agg_sized('a', 1, 4, 64);
SELECT bloom_filter_union(f) FROM (SELECT bloom_filter_agg_sized(i, 64 * i, 5) AS f FROM generate_series(1, 2) AS i GROUP BY i) AS f;
SELECT filter | counts FROM sets;
SELECT strings | bigints FROM sets;
\set VERBOSITY default

-- An error of unlike shapes has both.
SELECT bloom_filter_agg_sized('a', 1000, 5) | bloom_filter_agg_sized('a', 2000, 6);
SELECT bloom_filter_agg_sized('a', 1000, 5) - bloom_filter_agg_sized('a', 2000, 5);
SELECT count_min_agg_sized('a', 1, 3, 64) | count_min_agg_sized('a', 1, 4, 65);
SELECT count_min_union(c) FROM (SELECT count_min_agg_sized(i, 3, CASE i WHEN 3 THEN 65 ELSE 64 END) AS c FROM generate_series(1, 4) AS i GROUP BY i) AS s;
