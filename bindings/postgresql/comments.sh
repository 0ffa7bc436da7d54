# Comments of the types and functions of the extension, which \dT+ and \df+ show. `script.sh` reads this file.

# said NAME: what a type is, or what a function does, by the end of its name.
said() {
    case $1 in
    frequent_strings | frequent_bigints) echo 'sketch of the most frequent items, with bounds on their weights' ;;
    count_min | signed_count_min) echo 'Count-Min sketch: estimates of the weights of items' ;;
    bloom_filter) echo 'Bloom filter: whether an item may have been added' ;;
    *_agg) echo 'makes a sketch of the items of a group' ;;
    *_agg_sized) echo 'makes a sketch of these sizes of the items of a group' ;;
    *_union) echo 'merges sketches' ;;
    *_empty) echo 'an empty sketch' ;;
    *_empty_sized) echo 'an empty sketch of these sizes' ;;
    sketch_reset) echo 'an empty sketch of the same sizes' ;;
    sketch_add) echo 'a sketch with one more item' ;;
    sketch_halve) echo 'halves all weights, rounded down' ;;
    sketch_decay) echo 'multiplies all weights by a fraction, rounded down' ;;
    sketch_difference) echo 'removes the positions of another filter, and so may lose items' ;;
    sketch_intersection) echo 'keeps what two filters have in common' ;;
    *_estimate) echo 'an estimate of the weight of an item' ;;
    *_lower_bound) echo 'a weight that the item has at least' ;;
    *_upper_bound) echo 'a weight that the item has at most; for count_min with the confidence of its sizes' ;;
    *_bounds) echo 'bounds that enclose the weight of an item, and the estimate' ;;
    frequent_rows) echo 'the items above a threshold with their bounds' ;;
    sketch_support) echo 'estimates for the planner how many rows a filter keeps, and short forms of constants' ;;
    sketch_constant) echo 'a long sketch that is a constant of a plan' ;;
    *_contains) echo 'whether an item may have been added; false only if it was not' ;;
    *_status) echo 'total weight, error and sizes of a sketch' ;;
    *_row) echo 'an item with its bounds' ;;
    sketch_image) echo 'the image of a sketch, which the libraries and the program read' ;;
    *_from_image) echo 'a sketch of an image that the libraries or the program wrote' ;;
    *_from_bytea) echo 'a sketch of its binary form' ;;
    *_to_bytea) echo 'the binary form of a sketch' ;;
    *_in) echo 'reads the text form' ;;
    *_out) echo 'writes the text form' ;;
    *_recv) echo 'reads the binary form' ;;
    *_send) echo 'writes the binary form' ;;
    *_cmp) echo 'compares images: -1, 0 or 1' ;;
    *_eq) echo 'implementation of = operator' ;;
    *_ne) echo 'implementation of <> operator' ;;
    *_lt) echo 'implementation of < operator' ;;
    *_le) echo 'implementation of <= operator' ;;
    *_gt) echo 'implementation of > operator' ;;
    *_ge) echo 'implementation of >= operator' ;;
    *_hash) echo 'hash of an image' ;;
    *_hash_extended) echo 'hash of an image under a seed' ;;
    *_add) echo 'adds a row to the state of an aggregate' ;;
    *_enter) echo 'adds a row to the state of a frame' ;;
    *_leave) echo 'removes a row from the state of a frame' ;;
    *_of_frame) echo 'the sketch of the state of a frame' ;;
    *_add_sketch) echo 'merges a row into the state of an aggregate' ;;
    *_final) echo 'the sketch of the state of an aggregate' ;;
    sketch_combine) echo 'merges two states of an aggregate' ;;
    sketch_serial) echo 'writes the state of an aggregate for another process' ;;
    sketch_deserial) echo 'reads the state of an aggregate of another process' ;;
    *) echo "comments.sh has no line for $1" >&2 && exit 1 ;;
    esac
}

# comment_function KIND SIGNATURE: the comment of a FUNCTION or an AGGREGATE. Defaults and results are no part of its identity.
comment_function() {
    identity=$(printf '%s' "$2" | tr -s ' \n' ' ' | sed -E 's/\) RETURNS .*/)/; s/, OUT .*/)/; s/ DEFAULT [^,)]*//g')
    comment=$(said "${2%%(*}")
    echo "COMMENT ON $1 $identity IS '$comment';"
}
