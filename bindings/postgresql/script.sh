#!/bin/sh
# Writes the script of the extension to the standard output: the same parts for each type, and what its sketches have beside them.
#
# PostgreSQL runs the script as a superuser for any owner of a database, with a schema of his first in the search path. So the script only
# defines objects: it evaluates no expression and calls nothing. Each name of PostgreSQL has its schema, or is a word of the grammar, as
# `bigint`. Names without a schema are the extension's own: `CREATE` fails if one is there before it. The extension is relocatable, so they
# cannot have a schema. Scripts of updates follow the same rules, which `tests/scripts.py` checks.
set -eu
. "$(dirname "$0")/comments.sh"

# Types of PostgreSQL that are no words of the grammar.
text=pg_catalog.text bytea=pg_catalog.bytea cstring=pg_catalog.cstring internal=pg_catalog.internal

# An item and a weight have any type. Their types are independent, and a literal in quotes is an item of type text.
any_item=pg_catalog.anycompatible any_weight=pg_catalog.anyelement

# function_of SIGNATURE SYMBOL [WORDS [MORE]]: a function of the library.
function_of() {
    printf "CREATE FUNCTION %s\n    LANGUAGE C %s PARALLEL SAFE%s AS 'MODULE_PATHNAME', '%s';\n" \
        "$1" "${3:-IMMUTABLE STRICT}" "${4:-}" "$2"
    comment_function FUNCTION "$1"
}

# aggregate SIGNATURE STEP [MOVING]: an aggregate of the type, whose states take `space` bytes.
aggregate() {
    cat <<SQL
CREATE AGGREGATE $1 (
    SFUNC = $2, STYPE = $internal, SSPACE = $space, FINALFUNC = ${type}_final,${3:-}
    COMBINEFUNC = sketch_combine, SERIALFUNC = sketch_serial, DESERIALFUNC = sketch_deserial, PARALLEL = SAFE);
SQL
    comment_function AGGREGATE "$1"
}

# begin_type TYPE DESCRIPTION STORAGE SPACE [SEED]: the type, its forms and its image. SEED is an argument of the import. A COST is the
# time of a call in times of an operator of integers. `whole` is that of a call that reads or writes a whole sketch of the usual size:
# 1024 slots, or 100 kB.
begin_type() {
    type=$1 space=$4 whole=5000
    case $type in frequent_*) whole=1000 ;; esac
    cat <<SQL

-- $type: $2.

CREATE TYPE $type;
SQL
    function_of "${type}_in($cstring) RETURNS $type" "${type}_in" '' " COST $whole"
    function_of "${type}_out($type) RETURNS $cstring" sketch_out '' " COST $whole"
    function_of "${type}_recv($internal) RETURNS $type" "${type}_recv" '' " COST $whole"
    function_of "${type}_send($type) RETURNS $bytea" sketch_send '' " COST $whole"
    cat <<SQL
CREATE TYPE $type (
    INPUT = ${type}_in, OUTPUT = ${type}_out, RECEIVE = ${type}_recv, SEND = ${type}_send,
    INTERNALLENGTH = VARIABLE, ALIGNMENT = int4, STORAGE = $3);
COMMENT ON TYPE $type IS '$(said "$type")';

-- The bytea form has the header. The image has none: it is what the other interfaces of the library read and write.
SQL
    function_of "${type}_to_bytea($type) RETURNS $bytea" sketch_send '' " COST $whole"
    function_of "${type}_from_bytea($bytea) RETURNS $type" "${type}_from_bytea" '' " COST $whole"
    cat <<SQL
CREATE CAST ($type AS $bytea) WITH FUNCTION ${type}_to_bytea($type);
CREATE CAST ($bytea AS $type) WITH FUNCTION ${type}_from_bytea($bytea);
COMMENT ON CAST ($type AS $bytea) IS 'a sketch and its binary form';
COMMENT ON CAST ($bytea AS $type) IS 'a sketch and its binary form';
SQL
    function_of "sketch_image(sketch $type) RETURNS $bytea" sketch_image '' " COST $whole"
    function_of "${type}_from_image(image $bytea${5:-}) RETURNS $type" "${type}_from_image" '' " COST $whole"
    echo
    function_of "${type}_final($internal) RETURNS $type" state_final IMMUTABLE
}

# operator NAME WORDS COMMENT: an operator of two sketches of the type.
operator() {
    echo "CREATE OPERATOR $1 (LEFTARG = $type, RIGHTARG = $type, $2);"
    echo "COMMENT ON OPERATOR $1 ($type, $type) IS '$3';"
}

# row_type NAME COLUMNS: a type of rows that functions return.
row_type() {
    echo "CREATE TYPE $1 AS ($2);"
    echo "COMMENT ON TYPE $1 IS '$(said "$1")';"
}

# unions VOLATILITY: the aggregate of sketches, and the operator of two, of which either may be null. Frequent items are merged under a
# random key.
unions() {
    echo
    function_of "${type}_add_sketch($internal, $type) RETURNS $internal" state_add_sketch IMMUTABLE " COST $whole"
    aggregate "${type}_union($type)" "${type}_add_sketch"
    function_of "sketch_union($type, $type) RETURNS $type" sketch_union "$1" " COST $whole"
    operator '|' "FUNCTION = sketch_union, COMMUTATOR = |" 'merge of two sketches'
}

# change SIGNATURE SYMBOL [VOLATILITY]: a function that returns a new sketch.
change() {
    function_of "$1 RETURNS $type" "$2" "${3:-IMMUTABLE} STRICT" " COST $whole"
}

# comparison OPERATOR NAME COMMUTATOR NEGATOR ESTIMATE COMMENT [MORE]
comparison() {
    operator "$1" "FUNCTION = ${type}_$2,
    COMMUTATOR = $3, NEGATOR = $4, RESTRICT = pg_catalog.$5sel, JOIN = pg_catalog.$5joinsel${7:-}" "$6"
}

# Operators and their classes for hashes and B-trees.
comparisons() {
    cat <<SQL

-- Sketches compare their images. The order is that of the bytes, for DISTINCT, ORDER BY and indexes: it means nothing else.
SQL
    for name in eq ne lt le gt ge; do
        function_of "${type}_$name($type, $type) RETURNS boolean" "sketch_$name" '' " COST $whole"
    done
    function_of "${type}_cmp($type, $type) RETURNS integer" sketch_cmp '' " COST $whole"
    function_of "${type}_hash($type) RETURNS integer" sketch_hash '' " COST $whole"
    function_of "${type}_hash_extended($type, bigint) RETURNS bigint" sketch_hash_extended '' " COST $whole"
    comparison '=' eq '=' '<>' eq 'equal images' ', HASHES, MERGES'
    comparison '<>' ne '<>' '=' neq 'unequal images'
    comparison '<' lt '>' '>=' scalarlt 'order of images'
    comparison '<=' le '>=' '>' scalarle 'order of images'
    comparison '>' gt '<' '<=' scalargt 'order of images'
    comparison '>=' ge '<=' '<' scalarge 'order of images'
    cat <<SQL
CREATE OPERATOR CLASS ${type}_ops DEFAULT FOR TYPE $type USING hash AS
    OPERATOR 1 =, FUNCTION 1 ${type}_hash($type), FUNCTION 2 ${type}_hash_extended($type, bigint);
CREATE OPERATOR CLASS ${type}_ops DEFAULT FOR TYPE $type USING btree AS
    OPERATOR 1 <, OPERATOR 2 <=, OPERATOR 3 =, OPERATOR 4 >=, OPERATOR 5 >, FUNCTION 1 ${type}_cmp($type, $type);
SQL
    for part in CLASS FAMILY; do
        for method in hash btree; do
            echo "COMMENT ON OPERATOR $part ${type}_ops USING $method IS 'images of sketches';"
        done
    done
    echo
}

# frequent TYPE ITEM DESCRIPTION SPACE: a type of frequent items, which come back as ITEM.
frequent() {
    begin_type "$1" "$3" extended "$4"
    function_of "${type}_add($internal, $any_item) RETURNS $internal" "${type}_add_by_size" IMMUTABLE ' COST 5'
    function_of "${type}_add($internal, $any_item, $any_weight) RETURNS $internal" "${type}_add_by_size" IMMUTABLE ' COST 5'
    function_of "${type}_add($internal, $any_item, $any_weight, integer) RETURNS $internal" "${type}_add_by_size" IMMUTABLE ' COST 5'
    function_of "${type}_add($internal, $any_item, $any_weight, double precision) RETURNS $internal" "${type}_add_by_error" IMMUTABLE \
        ' COST 5'
    for more in '' ", weight $any_weight" ", weight $any_weight, max_map_size integer" \
        ", weight $any_weight, relative_error double precision"; do
        aggregate "${type}_agg(item $any_item$more)" "${type}_add"
    done
    unions STABLE
    cat <<SQL

-- Empty sketches, and sketches after a change.
SQL
    change "${type}_empty(max_map_size integer DEFAULT 1024)" "${type}_empty_by_size"
    change "${type}_empty(relative_error double precision)" "${type}_empty_by_error"
    change "sketch_reset(sketch $type)" sketch_reset
    change "sketch_add(sketch $type, item $any_item, weight bigint DEFAULT 1)" "${type}_with_item" STABLE
    comparisons
    for query in lower_bound estimate upper_bound; do
        function_of "sketch_$query(sketch $type, item $any_item) RETURNS bigint" "${type}_$query" '' ' COST 5 SUPPORT sketch_support'
    done
    function_of "sketch_bounds(sketch $type, item $any_item) RETURNS frequent_bounds" "${type}_bounds" '' ' COST 5 SUPPORT sketch_support'
    row_type "${type}_row" "item $2, lower_bound bigint, estimate bigint, upper_bound bigint"
    function_of "frequent_rows(sketch $type, mode $text DEFAULT 'no_false_negatives', threshold bigint DEFAULT 0)
    RETURNS SETOF ${type}_row" "${type}_rows" 'STABLE STRICT' ' COST 1000 ROWS 100'
    function_of "frequent_rows(sketch $type, max_rows bigint) RETURNS SETOF ${type}_row" "${type}_rows" 'STABLE STRICT' ' COST 1000 ROWS 10'
    function_of "sketch_status(sketch $type) RETURNS frequent_status" "${type}_status" '' ' COST 100'
}

# counted AGGREGATE NAMES TYPES MEANING: the aggregates by sizes or by errors, with and without weights.
counted() {
    for weight in '' " $any_weight,"; do
        words="$internal, $any_item,$weight $3"
        call=${weight:+_weighted}
        function_of "${type}_add($words) RETURNS $internal" "${type}_add${call}_$4" IMMUTABLE ' COST 5'
        if [ -n "$moving" ]; then
            function_of "${type}_enter($words) RETURNS $internal" "${type}_enter${call}_$4" IMMUTABLE ' COST 5'
            function_of "${type}_leave($words) RETURNS $internal" "${type}_leave$call" IMMUTABLE ' COST 5'
        fi
        aggregate "${type}_$1(item $any_item,${weight:+ weight $any_weight,} $2)" "${type}_add" "$moving"
    done
}

# count TYPE DESCRIPTION: a type of Count-Min sketches. `signed` weights may leave the frame of a window that moves.
count() {
    begin_type "$1" "$2" extended 32768 ', seed numeric DEFAULT 9001'
    moving=
    if [ "$type" = signed_count_min ]; then
        moving="
    MSFUNC = ${type}_enter, MINVFUNC = ${type}_leave, MSTYPE = $internal, MSSPACE = $space, MFINALFUNC = ${type}_of_frame,"
        echo '-- A frame of a window that moves adds the rows that enter it, and removes those that leave it.'
        function_of "${type}_of_frame($internal) RETURNS $type" "${type}_of_frame" IMMUTABLE
    fi
    counted agg 'relative_error double precision, confidence double precision' 'double precision, double precision' by_error
    counted agg_sized 'num_hashes integer, num_buckets integer' 'integer, integer' by_size
    unions IMMUTABLE
    cat <<SQL

-- Empty sketches, and sketches after a change.
SQL
    change "${type}_empty(relative_error double precision, confidence double precision)" "${type}_empty_by_error"
    change "${type}_empty_sized(num_hashes integer, num_buckets integer)" "${type}_empty_by_size"
    change "sketch_reset(sketch $type)" sketch_reset
    change "sketch_add(sketch $type, item $any_item, weight bigint DEFAULT 1)" "${type}_with_item"
    if [ -z "$moving" ]; then
        change "sketch_halve(sketch $type)" "${type}_halve"
        change "sketch_decay(sketch $type, numerator bigint, denominator bigint)" "${type}_decay"
    fi
    comparisons
    for query in estimate upper_bound; do
        function_of "sketch_$query(sketch $type, item $any_item) RETURNS bigint" "${type}_$query" '' ' COST 5 SUPPORT sketch_support'
    done
    function_of "sketch_status(sketch $type) RETURNS count_min_status" "${type}_status" '' ' COST 100'
}

# The type of filters.
filters() {
    begin_type bloom_filter "$1" external 32768
    function_of "${type}_add($internal, $any_item, bigint, double precision) RETURNS $internal" "${type}_add_by_error" IMMUTABLE ' COST 5'
    aggregate "${type}_agg(key $any_item, expected_items bigint, false_positive_rate double precision)" "${type}_add"
    function_of "${type}_add($internal, $any_item, bigint, integer) RETURNS $internal" "${type}_add_by_size" IMMUTABLE ' COST 5'
    aggregate "${type}_agg_sized(key $any_item, num_bits bigint, num_hashes integer)" "${type}_add"
    unions IMMUTABLE
    change "sketch_intersection($type, $type)" "${type}_intersection"
    operator '&' "FUNCTION = sketch_intersection, COMMUTATOR = &" 'what two filters have in common'
    cat <<SQL

-- Empty sketches, and sketches after a change.
SQL
    change "${type}_empty(expected_items bigint, false_positive_rate double precision)" "${type}_empty_by_error"
    change "${type}_empty_sized(num_bits bigint, num_hashes integer)" "${type}_empty_by_size"
    change "sketch_reset(filter $type)" sketch_reset
    change "sketch_add(filter $type, item $any_item)" "${type}_with_item"
    change "sketch_difference($type, $type)" "${type}_difference"
    operator - 'FUNCTION = sketch_difference' 'a filter without the positions of another one'
    comparisons
    function_of "sketch_contains(filter $type, item $any_item) RETURNS boolean" "${type}_contains" '' ' COST 5 SUPPORT sketch_support'
    function_of "sketch_status(filter $type) RETURNS bloom_filter_status" "${type}_status" '' ' COST 100'
}

cat <<'SQL'
-- sketches_rattle: frequent items, Count-Min sketches and Bloom filters.
\echo Use "CREATE EXTENSION sketches_rattle" to load this file. \quit

-- States of aggregates, of all types. SSPACE is the number of bytes from which the planner and a hash of groups foresee their
-- memory: for frequent items those of a full sketch of the default size, so that groups that come early leave room to grow.

SQL
function_of "sketch_combine($internal, $internal) RETURNS $internal" state_combine IMMUTABLE
function_of "sketch_serial($internal) RETURNS $bytea" state_serial
function_of "sketch_deserial($bytea, $internal) RETURNS $internal" state_deserial
cat <<SQL

-- The planner's support for queries. A long sketch that is a constant of a plan has this type there, whose output EXPLAIN prints: it is short.
CREATE TYPE sketch_constant;
SQL
function_of "sketch_support($internal) RETURNS $internal" sketch_support
function_of "sketch_constant_in($cstring) RETURNS sketch_constant" sketch_constant_in
function_of "sketch_constant_out(sketch_constant) RETURNS $cstring" sketch_constant_out
cat <<SQL
CREATE TYPE sketch_constant (INPUT = sketch_constant_in, OUTPUT = sketch_constant_out, INTERNALLENGTH = VARIABLE, ALIGNMENT = int4);
COMMENT ON TYPE sketch_constant IS '$(said sketch_constant)';
SQL
echo
echo '-- Rows that functions return.'
row_type frequent_bounds 'lower_bound bigint, estimate bigint, upper_bound bigint'
row_type frequent_status 'total_weight bigint, maximum_error bigint, num_active_items bigint, maximum_map_capacity bigint,
    current_map_capacity bigint, max_map_size bigint'
row_type count_min_status "total_weight bigint, num_hashes integer, num_buckets bigint, seed numeric, items $text"
row_type bloom_filter_status "bits_used bigint, capacity bigint, num_hashes integer, seed numeric, items $text"
frequent frequent_strings $text 'the most frequent strings, with bounds of their weights' 75776
frequent frequent_bigints bigint 'the most frequent bigints, with bounds of their weights' 40960
count count_min 'estimates of weights of strings or bigints, with weights from 0 on (Count-Min)'
count signed_count_min 'estimates of weights of strings or bigints, with weights that may be below 0 (Count-Min)'
filters 'a set of strings or bigints, with false positives (Bloom filter)'
