/* Sketches of frequent items, and their reports. See `datasketches.hpp`. */
#ifndef DATASKETCHES_FREQUENT_ITEMS_HPP
#define DATASKETCHES_FREQUENT_ITEMS_HPP

#include "sketch.hpp"

namespace datasketches {
inline namespace DATASKETCHES_FORM {

/* Which items a report has: all whose true weight exceeds the threshold and the sketch's error, or no others. */
enum class error_type { no_false_positives, no_false_negatives };

/* An item of a report and its bounds. A string lies in the report. */
template <class T> struct frequent_row {
    std::conditional_t<std::is_same_v<T, std::string>, std::string_view, T> item;
    std::uint64_t lower_bound;
    std::uint64_t estimate;
    std::uint64_t upper_bound;
};

template <class T> class frequent_items;

/* A report: rows of descending estimates, to which iterators and indices lead. It holds the strings of its rows, and moves. */
template <class T> class frequent_rows {
public:
    using value_type = frequent_row<T>;
    using const_iterator = typename std::vector<value_type>::const_iterator;
    using iterator = const_iterator;

    const_iterator begin() const noexcept { return rows_.begin(); }
    const_iterator end() const noexcept { return rows_.end(); }
    std::size_t size() const noexcept { return rows_.size(); }
    bool empty() const noexcept { return rows_.empty(); }
    const value_type &operator[](std::size_t i) const { return rows_[i]; }

private:
    friend class frequent_items<T>;

    std::unique_ptr<std::uint8_t[]> bytes_;
    std::vector<value_type> rows_;
};

namespace detail {

/* The C calls for sketches of items of type `T`. */
template <class T> struct frequent_items_calls {};

template <> struct frequent_items_calls<std::uint64_t> {
    static constexpr std::int32_t kind = DS_FREQUENT_ITEMS_U64;
    static constexpr auto rows = ds_frequent_items_u64_rows;
};

template <> struct frequent_items_calls<std::int64_t> {
    static constexpr std::int32_t kind = DS_FREQUENT_ITEMS_I64;
    static constexpr auto rows = ds_frequent_items_i64_rows;
};

template <> struct frequent_items_calls<std::string> {
    static constexpr std::int32_t kind = DS_FREQUENT_ITEMS_STRING;
    static constexpr auto rows = ds_frequent_items_string_rows;
};

} /* namespace detail */

/* A sketch of the items of the largest weights. `T` is `std::string`, `std::int64_t` or `std::uint64_t`. Weights are
 * `std::uint64_t`. */
template <class T>
class frequent_items : public detail::weighted<frequent_items<T>, T, std::uint64_t> {
    static_assert(std::is_same_v<T, std::string> || std::is_same_v<T, std::int64_t> || std::is_same_v<T, std::uint64_t>,
                  "the items of frequent_items are std::string, std::int64_t or std::uint64_t");

    using calls = detail::frequent_items_calls<T>;
    using detail::owner<frequent_items<T>, T>::handle_;

public:
    using bounds_type = ds_item_bounds;

    /* The kind, as in `ds_status`. */
    static constexpr std::int32_t kind = calls::kind;

    /* No sketch. */
    frequent_items() noexcept = default;

    /* Returns the largest sample size for a `max_map_size`: `ds_frequent_items_max_sample_size`. */
    static std::size_t max_sample_size(std::size_t max_map_size) noexcept
    {
        return ds_frequent_items_max_sample_size(max_map_size);
    }

    /* Returns the smallest `max_map_size` for an error target: `ds_frequent_items_suggest_max_map_size`. */
    static outcome<std::size_t> suggest_max_map_size(std::size_t parts)
    {
        return detail::written<std::size_t>(ds_frequent_items_suggest_max_map_size, parts);
    }

#ifndef DATASKETCHES_NO_EXCEPTIONS
    /* An empty sketch, with the largest sample size or a given one, under a drawn key or a given one: `ds_frequent_items_new`. */
    explicit frequent_items(std::size_t max_map_size) : frequent_items(max_map_size, max_sample_size(max_map_size)) {}
    frequent_items(std::size_t max_map_size, std::size_t sample_size)
    {
        detail::done(ds_frequent_items_new(&handle_, kind, max_map_size, sample_size, nullptr));
    }
    frequent_items(std::size_t max_map_size, std::size_t sample_size, key words)
    {
        detail::done(ds_frequent_items_new(&handle_, kind, max_map_size, sample_size, &words));
    }
#endif

    /* Returns an empty sketch, with the largest sample size or a given one, under a drawn key or a given one:
     * `ds_frequent_items_new`. */
    static outcome<frequent_items> create(std::size_t max_map_size) { return create(max_map_size, max_sample_size(max_map_size)); }
    static outcome<frequent_items> create(std::size_t max_map_size, std::size_t sample_size)
    {
        return detail::made<frequent_items>(ds_frequent_items_new, kind, max_map_size, sample_size, nullptr);
    }
    static outcome<frequent_items> create(std::size_t max_map_size, std::size_t sample_size, key words)
    {
        return detail::made<frequent_items>(ds_frequent_items_new, kind, max_map_size, sample_size, &words);
    }

    /* Returns the item's lower bound, estimate and upper bound: `ds_frequent_items_bounds`. */
    template <class Item> outcome<bounds_type> bounds(const Item &item)
    {
        return detail::written<bounds_type>([&](auto *found) { return this->on_item(ds_frequent_items_bounds, item, found); });
    }

    /* Writes the bounds of each item to a contiguous range of as many `ds_item_bounds`:
     * `ds_frequent_items_bounds_all`. An error in a block leaves the bounds of the blocks before it written. */
    template <class Items, class Bounds> outcome<> bounds_all(Items &&items, Bounds &&found)
    {
        return detail::done(this->on_items(ds_frequent_items_bounds_all, items, detail::span_of<bounds_type>(found)));
    }

    /* Returns the bounds of each item. */
    template <class Items> outcome<std::vector<bounds_type>> bounds_all(Items &&items)
    {
        return this->template results_of<bounds_type>(ds_frequent_items_bounds_all, items);
    }
    template <class Item> outcome<std::vector<bounds_type>> bounds_all(std::initializer_list<Item> items)
    {
        return this->template results_of<bounds_type>(ds_frequent_items_bounds_all, items);
    }

    /* Returns the rows whose bound exceeds the threshold and the sketch's error, at most `limit` of them:
     * `ds_frequent_items_string_rows`, `.._i64_rows` and `.._u64_rows`.
     *
     *     for (auto &[item, lower, estimate, upper] : sketch.rows(error_type::no_false_negatives)) .. */
    outcome<frequent_rows<T>> rows(error_type type, std::uint64_t threshold = 0, std::size_t limit = SIZE_MAX)
    {
        constexpr bool of_strings = std::is_same_v<T, std::string>;
        frequent_rows<T> report;
        std::vector<std::conditional_t<of_strings, std::uint64_t, T>> items; /* numbers, or offsets of strings */
        std::vector<bounds_type> found;
        std::size_t count = 0, num_bytes = 0;
        bool all = type == error_type::no_false_negatives;
        auto call = [&](std::size_t room, std::size_t room_for_bytes) {
            found.resize(room);
            if constexpr (of_strings) {
                items.resize(room + 1);
                report.bytes_.reset(new std::uint8_t[room_for_bytes]);
                return calls::rows(&this->handle_, all, threshold, limit, report.bytes_.get(), room_for_bytes, items.data(),
                                   items.size(), found.data(), found.size(), &count, &num_bytes);
            } else {
                items.resize(room);
                return calls::rows(&this->handle_, all, threshold, limit, items.data(), items.size(), found.data(), found.size(),
                                   &count);
            }
        };
        /* Room for short reports. A longer one is made twice, since the first call returns its size. */
        std::int32_t code = call(64, 4096);
        if (code == DS_NO_ROOM) code = call(count, num_bytes + 1);
        auto item = [&](std::size_t i) {
            if constexpr (of_strings)
                return std::string_view(reinterpret_cast<const char *>(report.bytes_.get() + items[i]), items[i + 1] - items[i]);
            else
                return items[i];
        };
        if (code < 0) count = 0;
        report.rows_.reserve(count);
        for (std::size_t i = 0; i < count; i++)
            report.rows_.push_back({item(i), found[i].lower_bound, found[i].estimate, found[i].upper_bound});
        return detail::done(code, std::move(report));
    }

    /* Sets how many counters later purges sample: `ds_frequent_items_set_sample_size`. */
    outcome<> set_sample_size(std::size_t sample_size)
    {
        return detail::done(ds_frequent_items_set_sample_size(&handle_, sample_size));
    }
};

} /* inline namespace */
} /* namespace datasketches */

#endif
