/* Items, ranges of items, and how C calls take them. See `datasketches.hpp`. */
#ifndef DATASKETCHES_ITEMS_HPP
#define DATASKETCHES_ITEMS_HPP

#include "result.hpp"

#include <array>
#include <cstddef>
#include <iterator>
#include <memory>
#include <string_view>
#include <type_traits>
#include <vector>

namespace datasketches {
inline namespace DATASKETCHES_FORM {

/* A contiguous range at a pointer, for items, weights or results: `filter.insert_all(datasketches::span(items, count))`. */
template <class T> class span {
public:
    constexpr span(T *data, std::size_t size) noexcept : data_(data), size_(size) {}

    constexpr T *data() const noexcept { return data_; }
    constexpr std::size_t size() const noexcept { return size_; }
    constexpr T *begin() const noexcept { return data_; }
    constexpr T *end() const noexcept { return data_ + size_; }

private:
    T *data_;
    std::size_t size_;
};

/* Items of a type that C calls take where they are: those of `offset_strings`, `words`, `lines` or `with_validity`. It points to
 * the caller's values, and copies none. */
template <class Item> struct items_in_place {
    using item_type = Item;
    ds_items items;
};
using string_items = items_in_place<ds_string>;

namespace detail {

template <class T> using bare = std::remove_cv_t<std::remove_reference_t<T>>;

/* The most strings or numbers of a block. */
inline constexpr std::size_t block = 1024;

/* --- Items. --- */

template <class T>
inline constexpr bool is_string = std::is_convertible_v<T, std::string_view> && !std::is_null_pointer_v<bare<T>>;

template <class T>
inline constexpr bool is_character =
    std::is_same_v<T, bool> || std::is_same_v<T, char> || std::is_same_v<T, wchar_t> || std::is_same_v<T, char16_t> ||
#ifdef __cpp_char8_t
    std::is_same_v<T, char8_t> ||
#endif
    std::is_same_v<T, char32_t>;

template <class T>
inline constexpr bool is_number = std::is_integral_v<T> && !is_character<T> && sizeof(T) <= sizeof(std::uint64_t);

/* Whether the type `To`, of 64 bits, has all values of the type `From`. */
template <class From, class To>
inline constexpr bool fits = is_number<From> && (std::is_signed_v<From> == std::is_signed_v<To> ||
                                                 (std::is_unsigned_v<From> && sizeof(From) < sizeof(To)));

/* Whether both are numbers of 64 bits in the same form, as `long` and `long long`. */
template <class T, class U>
inline constexpr bool is_same_number = is_number<T> && is_number<U> && sizeof(T) == sizeof(U) &&
                                       std::is_signed_v<T> == std::is_signed_v<U>;

/* The kinds of items of sketches that take strings and numbers of both signs. */
struct any_item {};

/* Returns the bytes of a string. If it has none, they are not at null. */
inline ds_string bytes_of(std::string_view string)
{
    const void *bytes = string.empty() && !string.data() ? ds_no_values() : string.data();
    return {static_cast<const std::uint8_t *>(bytes), string.size()};
}

/* Converts an item to one that the C calls of the sketch take: a string or a number. A number below 0 is the same `any_item` as
 * the `std::uint64_t` of its bits. */
template <class As, class Item> auto to_item(const Item &item)
{
    if constexpr (std::is_arithmetic_v<As>) {
        static_assert(fits<Item, As>, "an item of frequent_items is of an integer type all whose values the sketch's type has");
        return static_cast<As>(item);
    } else if constexpr (std::is_same_v<Item, ds_string>) {
        return item;
    } else if constexpr (is_string<const Item &>) {
        return bytes_of(item);
    } else {
        static_assert(std::is_same_v<As, any_item>, "an item of frequent_items<std::string> converts to std::string_view");
        static_assert(is_number<Item>, "an item is a string, or an integer of up to 64 bits and no bool or character");
        return static_cast<std::uint64_t>(item);
    }
}

/* Converts a weight to the type of the sketch's weights. */
template <class W, class Weight> W to_weight(const Weight &weight)
{
    static_assert(fits<Weight, W>, "a weight is of an integer type all whose values the sketch's weights have, as 5u if unsigned");
    return static_cast<W>(weight);
}

/* --- Pointers. --- */

template <class T> bool is_missing(span<T> values) { return !values.data() && values.size() > 0; }

template <class T> T *place(span<T> values) { return values.data() ? values.data() : static_cast<T *>(ds_no_values()); }

/* --- C calls on an item. --- */

inline ds_item in_c(std::uint64_t number) { return ds_item_u64(number); }
inline ds_item in_c(std::int64_t number) { return ds_item_i64(number); }
inline ds_item in_c(ds_string string) { return {DS_ITEM_STRING, 0, string.bytes, string.length}; }

/* Makes a C call on an item. */
template <class As, class Item, class Call> std::int32_t on_item(const Item &item, Call call)
{
    const ds_item plain = in_c(to_item<As>(item));
    return ds_item_has_null(&plain) ? DS_BAD_ARGUMENT : call(&plain);
}

/* --- Ranges. --- */

template <class Range, class = void> inline constexpr bool is_range = false;
template <class Range>
inline constexpr bool is_range<
    Range, std::void_t<decltype(std::begin(std::declval<Range &>())), decltype(std::end(std::declval<Range &>()))>> = true;

template <class Range, class = void> inline constexpr bool is_contiguous = false;
template <class Range>
inline constexpr bool is_contiguous<
    Range, std::void_t<decltype(*std::data(std::declval<Range &>())), decltype(std::size(std::declval<Range &>()))>> = true;

template <class Range> using reference_of = decltype(*std::begin(std::declval<Range &>()));
template <class Range>
using category_of = typename std::iterator_traits<bare<decltype(std::begin(std::declval<Range &>()))>>::iterator_category;

/* Whether a range can be walked twice. */
template <class Range, class = void> inline constexpr bool is_forward = false;
template <class Range>
inline constexpr bool is_forward<Range, std::void_t<category_of<Range>>> =
    std::is_base_of_v<std::forward_iterator_tag, category_of<Range>>;

/* Whether the strings of a range stay where they are while its iterator goes on. */
template <class Range>
inline constexpr bool keeps_strings =
    is_forward<Range> && (std::is_lvalue_reference_v<reference_of<Range>> ||
                          std::is_same_v<bare<reference_of<Range>>, std::string_view> ||
                          std::is_same_v<bare<reference_of<Range>>, ds_string> ||
                          std::is_pointer_v<bare<reference_of<Range>>>);

/* Returns a contiguous range of another name of the same type. */
template <class T, class Range> span<T> span_of(Range &&range)
{
    static_assert(is_contiguous<Range>, "weights, results and sketches are a contiguous range, as std::vector but of bool");
    using element = std::remove_reference_t<decltype(*std::data(range))>;
    static_assert(std::is_same_v<std::remove_cv_t<element>, std::remove_cv_t<T>> ||
                      is_same_number<std::remove_cv_t<element>, std::remove_cv_t<T>>,
                  "weights, results and sketches are of the type of this sketch");
    static_assert(std::is_const_v<T> || !std::is_const_v<element>, "results and sketches are not const");
    return span<T>(reinterpret_cast<T *>(std::data(range)), std::size(range));
}

/* --- Many items. --- */

inline ds_items to_items(span<const std::uint64_t> numbers) { return ds_items_u64(numbers.data(), numbers.size()); }
inline ds_items to_items(span<const std::int64_t> numbers) { return ds_items_i64(numbers.data(), numbers.size()); }
inline ds_items to_items(span<const ds_string> strings) { return ds_items_strings(strings.data(), strings.size()); }

/* What `whole` returns for items that are passed in blocks. */
struct no_whole {};

template <class Items> inline constexpr bool is_in_place = false;
template <class Item> inline constexpr bool is_in_place<items_in_place<Item>> = true;

/* Returns items that are passed whole and where they are. */
template <class As, class Items> auto whole(Items &items)
{
    if constexpr (is_in_place<bare<Items>>) {
        static_assert(sizeof(to_item<As>(std::declval<const typename bare<Items>::item_type &>())) > 0);
        return items.items;
    } else {
        static_assert(is_range<Items>, "items are a range of strings or integers, or offset_strings, words or lines");
        using element = bare<reference_of<Items>>;
        using item = decltype(to_item<As>(std::declval<const element &>()));
        constexpr bool is_kept = std::is_same_v<element, ds_string> || (is_number<element> && sizeof(element) == sizeof(item));
        if constexpr (is_contiguous<Items> && is_kept)
            return to_items(span_of<const std::conditional_t<std::is_signed_v<element>, std::int64_t, item>>(items));
        else
            return no_whole();
    }
}

template <class As, class Items>
inline constexpr bool is_whole = std::is_same_v<decltype(whole<As>(std::declval<Items &>())), ds_items>;

/* Returns the number of items, or 0 for words and lines that calls reject. */
inline std::size_t count_of(const ds_items &items)
{
    std::size_t count = ds_num_rows(&items);
    if (items.kind == DS_ITEMS_WORDS || items.kind == DS_ITEMS_LINES) (void)ds_check_num_items(ds_num_items, &items, &count);
    return count;
}
template <class As, class Items> std::size_t count_of(Items &items)
{
    if constexpr (is_whole<As, Items>) {
        return count_of(whole<As>(items));
    } else {
        static_assert(is_forward<Items>, "items with weights or results are a range that can be walked twice");
        return static_cast<std::size_t>(std::distance(std::begin(items), std::end(items)));
    }
}

/* Makes a call on items, whole or converted in blocks, with the index of the first item of each part, up to the first error.
 * Returns it, or the result of the last block. No items are a block of none, so that errors of the handle are returned. */
template <class As, class Items, class Call> std::int32_t in_parts(Items &items, Call call)
{
    auto checked = [&](const ds_items &part, std::size_t first) -> std::int32_t {
        return ds_items_have_null(&part) ? DS_BAD_ARGUMENT : call(&part, first);
    };
    if constexpr (is_whole<As, Items>) {
        return checked(whole<As>(items), 0);
    } else {
        using item = decltype(to_item<As>(*std::begin(items)));
        constexpr std::size_t most = std::is_same_v<item, ds_string> && !keeps_strings<Items> ? 1 : block;
        std::array<item, most> part;
        std::size_t count = 0, first = 0;
        auto last = std::end(items);
        for (auto it = std::begin(items); it != last; ++it) {
            auto &&element = *it;
            part[count++] = to_item<As>(element);
            if (count < most) continue;
            if (std::int32_t code = checked(to_items(span<const item>(part.data(), count)), first); code < 0) return code;
            first += count;
            count = 0;
        }
        return count > 0 || first == 0 ? checked(to_items(span<const item>(part.data(), count)), first) : DS_OK;
    }
}

/* Makes a C call on items. */
template <class As, class Items, class Call> std::int32_t on_items(Items &items, Call call)
{
    return in_parts<As>(items, [&](const ds_items *part, std::size_t) { return call(part); });
}

/* Makes a C call on items with as many weights or results. */
template <class As, class Items, class Other, class Call> std::int32_t on_items(Items &items, span<Other> others, Call call)
{
    if (is_missing(others)) return DS_BAD_ARGUMENT;
    if constexpr (is_whole<As, Items>) {
        return on_items<As>(items, [&](const ds_items *all) { return call(all, place(others), others.size()); });
    } else {
        if (count_of<As>(items) != others.size()) return DS_NO_ROOM;
        return in_parts<As>(items, [&](const ds_items *part, std::size_t first) {
            return call(part, place(others) + first, count_of(*part));
        });
    }
}

/* Returns the results of a C call on items. */
template <class As, class T, class Items, class Call> outcome<std::vector<T>> results_of(Items &items, Call call)
{
    std::size_t count = count_of<As>(items);
    if constexpr (std::is_same_v<T, bool>) {
        std::unique_ptr<bool[]> found(new bool[count]());
        std::int32_t code = on_items<As>(items, span<bool>(found.get(), count), call);
        return done(code, std::vector<bool>(found.get(), found.get() + count));
    } else {
        std::vector<T> found(count);
        std::int32_t code = on_items<As>(items, span<T>(found.data(), count), call);
        return done(code, std::move(found));
    }
}

} /* namespace detail */

/* Returns the strings of one buffer of bytes: string i is the bytes from offset i up to offset i + 1. The offsets are integers of
 * 32 or 64 bits, as in Arrow's `utf8` and `large_utf8`: `ds_items_offsets32` and `ds_items_offsets`. */
template <class Offset>
string_items offset_strings(std::string_view bytes, const Offset *offsets, std::size_t num_offsets) noexcept
{
    static_assert(detail::is_number<Offset> && sizeof(Offset) >= sizeof(std::uint32_t), "offsets are integers of 32 or 64 bits");
    auto [data, length] = detail::bytes_of(bytes);
    if constexpr (sizeof(Offset) == sizeof(std::uint32_t))
        return {ds_items_offsets32(data, length, reinterpret_cast<const std::uint32_t *>(offsets), num_offsets)};
    else
        return {ds_items_offsets(data, length, reinterpret_cast<const std::uint64_t *>(offsets), num_offsets)};
}

/* Return the words or the lines of a string: `ds_items_words` and `ds_items_lines`.
 *
 *     heavy.update_all(datasketches::words("to be or not to be")); */
inline string_items words(std::string_view text) noexcept
{
    return {ds_items_words(detail::bytes_of(text).bytes, text.size())};
}
inline string_items lines(std::string_view text) noexcept
{
    return {ds_items_lines(detail::bytes_of(text).bytes, text.size())};
}

/* Returns rows some of which may be missing, by a bitmap: `ds_items_with_validity`. The rows are `offset_strings`, or a contiguous
 * range of integers of 64 bits or of `ds_string`. Neither they nor the bitmap are copied. */
template <class Rows> auto with_validity(const Rows &rows, const std::uint8_t *validity, std::size_t first_bit = 0) noexcept
{
    static_assert(detail::is_whole<detail::any_item, const Rows>, "rows are offset_strings, or integers of 64 bits or ds_string");
    const ds_items items = ds_items_with_validity(detail::whole<detail::any_item>(rows), validity, first_bit);
    if constexpr (detail::is_in_place<Rows>) return Rows{items};
    else return items_in_place<detail::bare<detail::reference_of<const Rows>>>{items};
}

} /* inline namespace */
} /* namespace datasketches */

#endif
