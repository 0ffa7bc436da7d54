/* Count-Min sketches, and sketches in the bytes of an image. See `datasketches.hpp`. */
#ifndef DATASKETCHES_COUNT_MIN_SKETCH_HPP
#define DATASKETCHES_COUNT_MIN_SKETCH_HPP

#include "sketch.hpp"

namespace datasketches {
inline namespace DATASKETCHES_FORM {

namespace detail {

/* The C calls for sketches with weights in `W`. */
template <class W> struct count_min_calls {};

template <> struct count_min_calls<std::uint64_t> {
    static constexpr std::int32_t kind = DS_COUNT_MIN_U64;
    static constexpr auto estimate = ds_count_min_u64_estimate;
    static constexpr auto estimate_all = ds_count_min_u64_estimate_all;
    static constexpr auto upper_bound = ds_count_min_u64_upper_bound;
    static constexpr auto image_estimate = ds_count_min_u64_image_estimate;
};

template <> struct count_min_calls<std::int64_t> {
    static constexpr std::int32_t kind = DS_COUNT_MIN_I64;
    static constexpr auto estimate = ds_count_min_i64_estimate;
    static constexpr auto estimate_all = ds_count_min_i64_estimate_all;
    static constexpr auto upper_bound = ds_count_min_i64_upper_bound;
    static constexpr auto image_estimate = ds_count_min_i64_image_estimate;
};

} /* namespace detail */

/* A Count-Min sketch with weights in `W`: `std::uint64_t`, or `std::int64_t`, which may be below 0. The C calls are named
 * `ds_count_min_u64_..` and `ds_count_min_i64_..`. */
template <class W>
class count_min_sketch
    : public detail::weighted<count_min_sketch<W>, detail::any_item, W>,
      public detail::comparable<count_min_sketch<W>> {
    static_assert(std::is_same_v<W, std::int64_t> || std::is_same_v<W, std::uint64_t>,
                  "the weights of count_min_sketch are std::int64_t or std::uint64_t");

    using calls = detail::count_min_calls<W>;
    using detail::owner<count_min_sketch<W>, detail::any_item>::handle_;

public:
    /* The kind, as in `ds_status`. */
    static constexpr std::int32_t kind = calls::kind;

    /* No sketch. */
    count_min_sketch() noexcept = default;

#ifndef DATASKETCHES_NO_EXCEPTIONS
    /* An empty sketch: `ds_count_min_new`. */
    count_min_sketch(std::uint8_t num_hashes, std::uint32_t num_buckets, std::uint64_t seed = default_seed)
    {
        detail::done(ds_count_min_new(&handle_, kind, num_hashes, num_buckets, seed));
    }
#endif

    /* Returns an empty sketch: `ds_count_min_new`. */
    static outcome<count_min_sketch> create(std::uint8_t num_hashes, std::uint32_t num_buckets, std::uint64_t seed = default_seed)
    {
        return detail::made<count_min_sketch>(ds_count_min_new, kind, num_hashes, num_buckets, seed);
    }

    /* Return sizes from targets: `ds_count_min_suggest_num_buckets` and `ds_count_min_suggest_num_hashes`. */
    static outcome<std::uint32_t> suggest_num_buckets(std::uint64_t parts)
    {
        return detail::written<std::uint32_t>(ds_count_min_suggest_num_buckets, parts);
    }
    static outcome<std::uint8_t> suggest_num_hashes(std::uint64_t questions)
    {
        return detail::written<std::uint8_t>(ds_count_min_suggest_num_hashes, questions);
    }

    /* Returns the estimate of the item's weight: `.._estimate`. */
    template <class Item> outcome<W> estimate(const Item &item)
    {
        return detail::written<W>([&](W *found) { return this->on_item(calls::estimate, item, found); });
    }

    /* Returns the estimate plus a margin: `.._upper_bound`. */
    template <class Item> outcome<W> upper_bound(const Item &item)
    {
        return detail::written<W>([&](W *found) { return this->on_item(calls::upper_bound, item, found); });
    }

    /* Writes the estimate of each item's weight to a contiguous range of as many `W`: `.._estimate_all`. An error in a block
     * leaves the estimates of the blocks before it written. */
    template <class Items, class Estimates> outcome<> estimate_all(Items &&items, Estimates &&estimates)
    {
        return detail::done(this->on_items(calls::estimate_all, items, detail::span_of<W>(estimates)));
    }

    /* Returns the estimate of each item's weight. */
    template <class Items> outcome<std::vector<W>> estimate_all(Items &&items)
    {
        return this->template results_of<W>(calls::estimate_all, items);
    }
    template <class Item> outcome<std::vector<W>> estimate_all(std::initializer_list<Item> items)
    {
        return this->template results_of<W>(calls::estimate_all, items);
    }

    /* Halve each cell and the total, or multiply them by a fraction, for weights in `std::uint64_t`: `ds_count_min_u64_halve` and
     * `ds_count_min_u64_decay`. */
    outcome<> halve()
    {
        static_assert(std::is_same_v<W, std::uint64_t>, "only weights in std::uint64_t are halved");
        return detail::done(ds_count_min_u64_halve(&handle_));
    }
    outcome<> decay(std::uint64_t numerator, std::uint64_t denominator)
    {
        static_assert(std::is_same_v<W, std::uint64_t>, "only weights in std::uint64_t decay");
        return detail::done(ds_count_min_u64_decay(&handle_, numerator, denominator));
    }
};

/* A Count-Min sketch in the bytes of its image, which it neither owns nor copies: see `bloom_filter_image`. */
template <class W> class count_min_image : public detail::image_in_place {
    static_assert(std::is_same_v<W, std::int64_t> || std::is_same_v<W, std::uint64_t>,
                  "the weights of count_min_image are std::int64_t or std::uint64_t");

    using calls = detail::count_min_calls<W>;

public:
    constexpr count_min_image(const std::uint8_t *image, std::size_t length, std::uint64_t seed = default_seed) noexcept
        : image_in_place({image, length}), seed_(seed)
    {
    }

    /* The image is a contiguous range of bytes, and no temporary but a span. It was written under this seed. */
    template <class Image, class = std::enable_if_t<detail::stays<Image>>>
    explicit count_min_image(Image &&image, std::uint64_t seed = default_seed) noexcept
        : image_in_place(detail::image_of(image)), seed_(seed)
    {
    }

    /* Returns the estimate of the item's weight: `.._image_estimate`. */
    template <class Item> outcome<W> estimate(const Item &item) const
    {
        return detail::written<W>([&](W *found) {
            auto make = [&](const ds_item *plain) { return on_image(calls::image_estimate, seed_, plain, found); };
            return detail::on_item<detail::any_item>(item, make);
        });
    }

private:
    std::uint64_t seed_;
};

} /* inline namespace */
} /* namespace datasketches */

#endif
