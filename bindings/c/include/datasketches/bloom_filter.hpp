/* Bloom filters, and filters in the bytes of an image. See `datasketches.hpp`. */
#ifndef DATASKETCHES_BLOOM_FILTER_HPP
#define DATASKETCHES_BLOOM_FILTER_HPP

#include "sketch.hpp"

namespace datasketches {
inline namespace DATASKETCHES_FORM {

class bloom_filter : public detail::owner<bloom_filter, detail::any_item>, public detail::comparable<bloom_filter> {
public:
    /* The kind, as in `ds_status`. */
    static constexpr std::int32_t kind = DS_BLOOM;

    /* No filter. */
    bloom_filter() noexcept = default;

#ifndef DATASKETCHES_NO_EXCEPTIONS
    /* An empty filter: `ds_bloom_new`. */
    bloom_filter(std::uint64_t num_bits, std::uint16_t num_hashes, std::uint64_t seed = default_seed)
    {
        detail::done(ds_bloom_new(&handle_, num_bits, num_hashes, seed));
    }
#endif

    /* Returns an empty filter: `ds_bloom_new`. */
    static outcome<bloom_filter> create(std::uint64_t num_bits, std::uint16_t num_hashes, std::uint64_t seed = default_seed)
    {
        return detail::made<bloom_filter>(ds_bloom_new, num_bits, num_hashes, seed);
    }

    /* Return sizes from targets: `ds_bloom_suggest_num_bits`, `ds_bloom_min_num_bits` and `ds_bloom_suggest_num_hashes`. */
    static outcome<std::uint64_t> suggest_num_bits(std::uint64_t num_items, std::uint64_t questions)
    {
        return detail::written<std::uint64_t>(ds_bloom_suggest_num_bits, num_items, questions);
    }
    static outcome<std::uint64_t> min_num_bits(std::uint64_t num_items, std::uint64_t questions)
    {
        return detail::written<std::uint64_t>(ds_bloom_min_num_bits, num_items, questions);
    }
    static outcome<std::uint16_t> suggest_num_hashes(std::uint64_t num_bits, std::uint64_t num_items)
    {
        return detail::written<std::uint16_t>(ds_bloom_suggest_num_hashes, num_bits, num_items);
    }

    /* Inserts an item: `ds_bloom_insert`. */
    template <class Item> outcome<> insert(const Item &item) { return detail::done(on_item(ds_bloom_insert, item)); }

    /* Inserts many items: `ds_bloom_insert_all`. */
    template <class Items> outcome<> insert_all(Items &&items) { return detail::done(on_items(ds_bloom_insert_all, items)); }
    template <class Item> outcome<> insert_all(std::initializer_list<Item> items)
    {
        return detail::done(on_items(ds_bloom_insert_all, items));
    }

    /* Inserts the item of each record: `ds_update_fields`. Writes what was read, and where the first record with an error
     * begins. */
    outcome<> insert_fields(std::string_view bytes, const ds_fields &fields, ds_fields_read &read)
    {
        return detail::done(ds_check_fields(ds_update_fields, &handle_, detail::bytes_of(bytes).bytes, bytes.size(), &fields, &read));
    }

    /* Returns whether the filter contains the item: `ds_bloom_contains`. */
    template <class Item> outcome<bool> contains(const Item &item) { return detail::yes(on_item(ds_bloom_contains, item)); }

    /* Writes for each item whether the filter contains it, to a range of as many `bool`: `ds_bloom_contains_all`. An error in a
     * block leaves the results of the blocks before it written. */
    template <class Items, class Results> outcome<> contains_all(Items &&items, Results &&results)
    {
        return detail::done(on_items(ds_bloom_contains_all, items, detail::span_of<bool>(results)));
    }

    /* Returns for each item whether the filter contains it. */
    template <class Items> outcome<std::vector<bool>> contains_all(Items &&items)
    {
        return results_of<bool>(ds_bloom_contains_all, items);
    }
    template <class Item> outcome<std::vector<bool>> contains_all(std::initializer_list<Item> items)
    {
        return results_of<bool>(ds_bloom_contains_all, items);
    }

    /* Inserts an item, and returns whether the filter contained it before: `ds_bloom_contains_and_insert`. */
    template <class Item> outcome<bool> contains_and_insert(const Item &item)
    {
        return detail::yes(on_item(ds_bloom_contains_and_insert, item));
    }

    /* Inserts many items, and writes for each whether the filter contained it before, to a range of as many `bool`:
     * `ds_bloom_contains_and_insert_all`. An error in a block leaves the blocks before it inserted and their results written. */
    template <class Items, class Results> outcome<> contains_and_insert_all(Items &&items, Results &&results)
    {
        return detail::done(on_items(ds_bloom_contains_and_insert_all, items, detail::span_of<bool>(results)));
    }

    /* Inserts many items, and returns for each whether the filter contained it before. */
    template <class Items> outcome<std::vector<bool>> contains_and_insert_all(Items &&items)
    {
        return results_of<bool>(ds_bloom_contains_and_insert_all, items);
    }
    template <class Item> outcome<std::vector<bool>> contains_and_insert_all(std::initializer_list<Item> items)
    {
        return results_of<bool>(ds_bloom_contains_and_insert_all, items);
    }

    /* Keeps the positions that both filters have, or removes the other's: `ds_join`.
     * `merge` unites. The filter itself as the other is DS_BAD_ARGUMENT. */
    outcome<> intersect(bloom_filter &other)
    {
        return detail::done(ds_check_join(ds_join, &handle_, &other.handle_, DS_JOIN_INTERSECTION));
    }
    outcome<> difference(bloom_filter &other)
    {
        return detail::done(ds_check_join(ds_join, &handle_, &other.handle_, DS_JOIN_DIFFERENCE));
    }
};

/* A filter in the bytes of its image, which it neither owns nor copies: they must stay as they are while it is used. Each C call
 * checks the image in constant time and allocates nothing. Many threads may use one object at once. */
class bloom_filter_image : public detail::image_in_place {
public:
    constexpr bloom_filter_image(const std::uint8_t *image, std::size_t length) noexcept : image_in_place({image, length}) {}

    /* The image is a contiguous range of bytes, and no temporary but a span. */
    template <class Image, class = std::enable_if_t<detail::stays<Image>>>
    explicit bloom_filter_image(Image &&image) noexcept : image_in_place(detail::image_of(image))
    {
    }

    /* Returns whether the filter contains the item: `ds_bloom_image_contains`. */
    template <class Item> outcome<bool> contains(const Item &item) const
    {
        auto make = [&](const ds_item *plain) { return on_image(ds_bloom_image_contains, plain); };
        return detail::yes(detail::on_item<detail::any_item>(item, make));
    }

    /* Writes for each item whether the filter contains it, to a range of as many `bool`: `ds_bloom_image_contains_all`. An error
     * in a block leaves the results of the blocks before it written. */
    template <class Items, class Results> outcome<> contains_all(Items &&items, Results &&results) const
    {
        auto make = [&](auto... parts) { return on_image(ds_bloom_image_contains_all, parts...); };
        return detail::done(detail::on_items<detail::any_item>(items, detail::span_of<bool>(results), make));
    }

    /* Returns for each item whether the filter contains it. */
    template <class Items> outcome<std::vector<bool>> contains_all(Items &&items) const
    {
        auto make = [&](auto... parts) { return on_image(ds_bloom_image_contains_all, parts...); };
        return detail::results_of<detail::any_item, bool>(items, make);
    }
    template <class Item> outcome<std::vector<bool>> contains_all(std::initializer_list<Item> items) const
    {
        return contains_all(span(items.begin(), items.size()));
    }
};

} /* inline namespace */
} /* namespace datasketches */

#endif
