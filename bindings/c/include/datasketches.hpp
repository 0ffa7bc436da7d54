/* datasketches.hpp: Bloom filters, Count-Min sketches and frequent items for C++17 and later, over `datasketches.h`.
 *
 * It includes the parts in `datasketches/`: `bloom_filter.hpp`, `count_min_sketch.hpp` and `frequent_items.hpp`, and `text.hpp` for
 * hashes and chunks of a text. Each may be included alone.
 *
 * Each class owns one sketch, and frees it. It moves and swaps, and does not copy: `clone()` makes a copy. After a move, and after
 * construction without arguments, there is no sketch, and calls return DS_NO_SKETCH. Each member converts its arguments and makes
 * the C call that its comment names. That call's comment in `datasketches.h` has the ranges, the errors and their order.
 *
 * Errors are exceptions of the class `error`. A call that throws leaves sketches, buffers and results as they were, unless its
 * comment says otherwise. The header also allocates vectors, which may throw `std::bad_alloc`.
 *
 * If `DATASKETCHES_NO_EXCEPTIONS` is defined before the first of these headers, they throw nothing. Under `-fno-exceptions` they
 * define it. Then calls return a `result`, which has a value or an error, and `create` makes sketches in place of constructors.
 * `outcome<T>` is `T`, or `result<T>` under that macro. If memory for a vector runs out, the standard library still throws, or ends
 * the program under `-fno-exceptions`.
 *
 * An item is a string or an integer. A string is what converts to `std::string_view`, and must be valid UTF-8. An integer has up
 * to 64 bits, and is no `bool` and no character. A number from 0 to 2^63 - 1 is the same item in each type. A weight, and an item
 * of `frequent_items`, is of a type all whose values the sketch's type has: a weight for `std::uint64_t` is unsigned, as `5u`.
 *
 * Many items are a range, or the strings that `offset_strings`, `words` or `lines` return. Each becomes a `ds_items`:
 *
 *  - contiguous numbers of 64 bits, contiguous `ds_string`, `offset_strings`, `words` and `lines`: one C call on the items where
 *    they are, without a copy;
 *  - other integers, and strings: C calls on blocks of at most 1024 items. Memory stays bounded. An error in a block leaves the
 *    blocks before it added, also where the C call on all items would have added none. Strings that live only until the next step
 *    of an iterator are passed one by one.
 *
 * Results and weights are contiguous ranges of the sketch's type. `span(pointer, count)` makes a range of a pointer and a count.
 *
 * One call at a time uses an object, also a query. So no member of a sketch is const. Threads that read one sketch at once have an
 * object each: `share()` of a sketch after `freeze()`. */
#ifndef DATASKETCHES_HPP
#define DATASKETCHES_HPP

#include "datasketches/bloom_filter.hpp"
#include "datasketches/count_min_sketch.hpp"
#include "datasketches/frequent_items.hpp"
#include "datasketches/text.hpp"

#endif
