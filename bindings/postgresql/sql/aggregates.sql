CREATE TABLE visits (page text, visitor bigint, seconds bigint);
INSERT INTO visits SELECT 'page ' || i % 7, i % 50, i % 3 FROM generate_series(1, 2100) AS i;

-- With few different items, frequent items and large counts are exact.
SELECT f.item, f.estimate = e.rows AND f.lower_bound = e.rows AND f.upper_bound = e.rows AS exact
FROM (SELECT frequent_strings_agg(page) AS s FROM visits) AS a, frequent_rows(a.s) AS f
JOIN (SELECT page, count(*) AS rows FROM visits GROUP BY page) AS e ON e.page = f.item
ORDER BY f.item;
SELECT f.item, f.estimate, e.total
FROM (SELECT frequent_strings_agg(page, seconds) AS s FROM visits) AS a, frequent_rows(a.s) AS f
JOIN (SELECT page, sum(seconds) AS total FROM visits GROUP BY page) AS e ON e.page = f.item
ORDER BY f.item;
SELECT count(*) AS items, bool_and(f.estimate = e.rows) AS exact
FROM (SELECT frequent_bigints_agg(visitor, 1, 128) AS s FROM visits) AS a, frequent_rows(a.s) AS f
JOIN (SELECT visitor, count(*) AS rows FROM visits GROUP BY visitor) AS e ON e.visitor = f.item;
SELECT count(*) AS items, bool_and(sketch_estimate(s.counts, page) = e.total) AS exact
FROM (SELECT count_min_agg_sized(page, seconds, 5, 1024) AS counts FROM visits) AS s,
    (SELECT page, sum(seconds) AS total FROM visits GROUP BY page) AS e;
SELECT count(*) AS items, bool_and(sketch_estimate(s.counts, visitor) = e.total) AS exact
FROM (SELECT signed_count_min_agg_sized(visitor, seconds, 5, 4096) AS counts FROM visits) AS s,
    (SELECT visitor, sum(seconds) AS total FROM visits GROUP BY visitor) AS e;

-- An estimate is the least cell of an item. So weights below 0 of other items can only make it less.
SELECT count(*) AS items, bool_and(sketch_estimate(s.counts, visitor) BETWEEN -2100 AND e.total) AS below
FROM (SELECT signed_count_min_agg_sized(visitor, -seconds, 5, 4096) AS counts FROM visits) AS s,
    (SELECT visitor, -sum(seconds) AS total FROM visits GROUP BY visitor) AS e;
SELECT bool_and(sketch_contains(s.pages, page)) AS pages, bool_and(sketch_contains(s.visitors, visitor)) AS visitors
FROM visits, (SELECT bloom_filter_agg(page, 100, 0.01) AS pages, bloom_filter_agg(visitor, 100, 0.01) AS visitors FROM visits) AS s;

-- Many items: the bounds of each key hold, and differ by at most the error.
CREATE TABLE many AS SELECT (1000000 / (i + 10))::bigint AS item, 'item ' || 1000000 / (i + 10) AS string, i % 4 AS weight
FROM generate_series(1, 100000) AS i;
SELECT bool_and(e.rows BETWEEN sketch_lower_bound(s.sketch, e.item) AND sketch_upper_bound(s.sketch, e.item)) AS within,
    bool_and(sketch_upper_bound(s.sketch, e.item) - sketch_lower_bound(s.sketch, e.item) <= (sketch_status(s.sketch)).maximum_error) AS narrow,
    max((sketch_status(s.sketch)).total_weight) AS total
FROM (SELECT frequent_bigints_agg(item, 1, 256) AS sketch FROM many) AS s,
    (SELECT item, count(*) AS rows FROM many GROUP BY item) AS e;
SELECT bool_and(e.total BETWEEN sketch_lower_bound(s.sketch, e.string) AND sketch_upper_bound(s.sketch, e.string)) AS within,
    bool_and(sketch_upper_bound(s.sketch, e.string) - sketch_lower_bound(s.sketch, e.string) <= (sketch_status(s.sketch)).maximum_error) AS narrow,
    max((sketch_status(s.sketch)).total_weight) AS total
FROM (SELECT frequent_strings_agg(string, weight, 256) AS sketch FROM many) AS s,
    (SELECT string, sum(weight) AS total FROM many GROUP BY string) AS e;
SELECT bool_and(sketch_estimate(s.sketch, e.item) BETWEEN e.total AND 150000) AS above, max((sketch_status(s.sketch)).total_weight) AS total
FROM (SELECT count_min_agg_sized(item, weight, 3, 100) AS sketch FROM many) AS s,
    (SELECT item, sum(weight) AS total FROM many GROUP BY item) AS e;

-- Rows whose item or weight is null are ignored. Without rows the result is null.
SELECT (sketch_status(frequent_strings_agg(item))).total_weight AS strings,
    (sketch_status(frequent_strings_agg(item, weight))).total_weight AS weights
FROM (VALUES ('a', 1), (NULL, 2), ('b', NULL), ('c', 4)) AS v(item, weight);
SELECT frequent_strings_agg(item) IS NULL AS strings, frequent_bigints_agg(item::bigint) IS NULL AS bigints,
    count_min_agg_sized(item, 1, 3, 64) IS NULL AS counts, signed_count_min_agg_sized(item, 1, 3, 64) IS NULL AS signed_counts,
    bloom_filter_agg(item, 100, 0.1) IS NULL AS filter, bloom_filter_union(NULL::bloom_filter) IS NULL AS filters
FROM (VALUES (NULL::text)) AS v(item);
SELECT count_min_agg_sized(visitor, 1, 3, 64) IS NULL AS counts FROM visits WHERE false;

-- Groups, filters of rows, and windows.
SELECT seconds, (sketch_status(frequent_bigints_agg(visitor))).total_weight AS rows,
    (sketch_status(frequent_bigints_agg(visitor) FILTER (WHERE visitor < 10))).num_active_items AS below_ten
FROM visits GROUP BY seconds ORDER BY seconds;
SELECT i, (sketch_status(frequent_bigints_agg(i % 2) OVER (ORDER BY i))).total_weight AS so_far FROM generate_series(1, 4) AS i;

-- Unions of sketches of groups are sketches of all rows.
SELECT count(*) AS items, bool_and(f.estimate = e.rows) AS exact
FROM (SELECT frequent_strings_union(s) AS s FROM (SELECT frequent_strings_agg(page) AS s FROM visits GROUP BY seconds) AS g) AS u,
    frequent_rows(u.s) AS f JOIN (SELECT page, count(*) AS rows FROM visits GROUP BY page) AS e ON e.page = f.item;
SELECT count(*) AS items, bool_and(f.estimate = e.rows) AS exact
FROM (SELECT frequent_bigints_union(s) AS s
    FROM (SELECT frequent_bigints_agg(visitor) AS s FROM visits GROUP BY seconds) AS g) AS u,
    frequent_rows(u.s) AS f JOIN (SELECT visitor, count(*) AS rows FROM visits GROUP BY visitor) AS e ON e.visitor = f.item;
SELECT (SELECT count_min_union(s) FROM (SELECT count_min_agg_sized(page, seconds, 5, 1024) AS s FROM visits GROUP BY visitor) AS g)
    = count_min_agg_sized(page, seconds, 5, 1024) AS counts,
    (SELECT signed_count_min_union(s)
    FROM (SELECT signed_count_min_agg_sized(page, -seconds, 5, 1024) AS s FROM visits GROUP BY visitor) AS g)
    = signed_count_min_agg_sized(page, -seconds, 5, 1024) AS signed_counts,
    (SELECT bloom_filter_union(s) FROM (SELECT bloom_filter_agg_sized(page, 1024, 5) AS s FROM visits GROUP BY visitor) AS g)
    = bloom_filter_agg_sized(page, 1024, 5) AS filter
FROM visits;
