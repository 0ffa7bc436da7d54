/* What all sketches have, and what an image does not say. See `datasketches.hpp`. */
#ifndef DATASKETCHES_SKETCH_HPP
#define DATASKETCHES_SKETCH_HPP

#include "items.hpp"

#include <initializer_list>
#include <optional>

namespace datasketches {
inline namespace DATASKETCHES_FORM {

/* The seed that filters and Count-Min sketches take if none is passed. */
inline constexpr std::uint64_t default_seed = DS_DEFAULT_SEED;

/* A key of two words, `k0` and `k1`. Choose both at random and keep them secret. */
using key = ds_key;

/* How many bytes the sketch of an image may take, the seed of a Count-Min sketch, and the key of a sketch of frequent items, which
 * is drawn if none is passed. Other kinds do without. */
class image_options {
public:
    image_options(std::size_t max_bytes, std::uint64_t seed = default_seed) noexcept : max_bytes_(max_bytes), seed_(seed) {}
    image_options(std::size_t max_bytes, key words) noexcept : max_bytes_(max_bytes), seed_(default_seed), key_(words) {}

    /* Returns the options for a C call. They point into this object. */
    ds_image_options get() const noexcept { return {max_bytes_, seed_, key_ ? &*key_ : nullptr}; }

private:
    std::size_t max_bytes_;
    std::uint64_t seed_;
    std::optional<key> key_;
};

/* A sketch that was read from the front of bytes, and the number of bytes that its image takes. */
template <class Sketch> struct prefix {
    Sketch sketch;
    std::size_t used;
};

namespace detail {

/* A contiguous range of bytes, as an image. */
template <class Image> span<const std::uint8_t> image_of(const Image &image)
{
    static_assert(is_contiguous<const Image>, "an image is a contiguous range of bytes, or a pointer and a length");
    static_assert(sizeof(*std::data(image)) == 1, "an image is a range of bytes");
    return {reinterpret_cast<const std::uint8_t *>(std::data(image)), std::size(image)};
}

template <class T> inline constexpr bool is_span = std::is_same_v<T, std::string_view>;
template <class T> inline constexpr bool is_span<span<T>> = true;

/* Whether a range of bytes is there when the expression ends: it is no temporary, or a span. */
template <class Image>
inline constexpr bool stays = is_contiguous<const bare<Image>> && (std::is_lvalue_reference_v<Image> || is_span<bare<Image>>);

/* Returns the sketch that a call writes to its first argument. */
template <class Sketch, class Call, class... Parts> outcome<Sketch> made(Call call, Parts... parts)
{
    Sketch sketch;
    std::int32_t code = call(sketch.get(), parts...);
    return done(code, std::move(sketch));
}

/* A sketch. Items convert to `As`: see `to_item`. */
template <class Sketch, class As> class owner {
public:
    owner() noexcept = default;
    owner(const owner &) = delete;
    owner &operator=(const owner &) = delete;
    owner(owner &&other) noexcept : handle_(std::exchange(other.handle_, ds_sketch DS_NONE)) {}

    owner &operator=(owner &&other) noexcept
    {
        owner taken(std::move(other));
        std::swap(handle_, taken.handle_);
        return *this;
    }

    ~owner() { ds_free(&handle_); }

    void swap(Sketch &other) noexcept { std::swap(handle_, static_cast<owner &>(other).handle_); }
    friend void swap(Sketch &a, Sketch &b) noexcept { a.swap(b); }

    /* Returns the handle, for a call of `datasketches.h`. It belongs to this object: do not copy or free it. */
    ds_sketch *get() noexcept { return &handle_; }

    /* Returns the sketch of an image, which is bytes and their number, or a contiguous range: `ds_deserialize`. The options are a
     * number of bytes, or that with a seed or a key.
     *
     *     auto counts = count_min_sketch<std::uint64_t>::deserialize(image, {max_bytes, seed}); */
    static outcome<Sketch> deserialize(const std::uint8_t *image, std::size_t length, const image_options &options)
    {
        ds_image_options plain = options.get();
        return written<Sketch>([&](Sketch *made) {
            return ds_check_image(ds_deserialize, made->get(), Sketch::kind, image, length, &plain);
        });
    }
    template <class Image> static outcome<Sketch> deserialize(const Image &image, const image_options &options)
    {
        auto bytes = image_of(image);
        return deserialize(bytes.data(), bytes.size(), options);
    }

    /* Returns the sketch of the image at the front of bytes, and the image's length: `ds_deserialize_prefix`.
     *
     *     auto [filter, used] = bloom_filter::deserialize_prefix(bytes, max_bytes); */
    static outcome<prefix<Sketch>> deserialize_prefix(const std::uint8_t *bytes, std::size_t length, const image_options &options)
    {
        ds_image_options plain = options.get();
        return written<prefix<Sketch>>([&](prefix<Sketch> *made) {
            return ds_check_prefix(ds_deserialize_prefix, made->sketch.get(), Sketch::kind, bytes, length, &plain, &made->used);
        });
    }
    template <class Bytes> static outcome<prefix<Sketch>> deserialize_prefix(const Bytes &bytes, const image_options &options)
    {
        auto all = image_of(bytes);
        return deserialize_prefix(all.data(), all.size(), options);
    }

    /* Returns the image, writes it to a buffer and returns its length, or returns its length alone: `ds_serialize` and
     * `ds_serialized_bytes`. */
    outcome<std::vector<std::uint8_t>> serialize()
    {
        std::size_t bytes = 0, count = 0;
        std::int32_t code = ds_serialized_bytes(&handle_, &bytes);
        std::vector<std::uint8_t> image(bytes);
        if (code >= 0) code = (ds_serialize)(&handle_, image.data(), image.size(), &count);
        return done(code, std::move(image));
    }
    outcome<std::size_t> serialize(std::uint8_t *out, std::size_t capacity)
    {
        return written<std::size_t>(ds_check_buffer, ds_serialize, &handle_, out, capacity);
    }
    outcome<std::size_t> serialized_size() { return written<std::size_t>(ds_serialized_bytes, &handle_); }

    /* Merges the other sketch into this one, filters as a union: `ds_join`. The sketch itself as the other is DS_BAD_ARGUMENT. */
    outcome<> merge(Sketch &other) { return done(ds_check_join(ds_join, &handle_, other.get(), DS_JOIN_MERGE)); }

    /* Merges all sketches of a contiguous range into this one: `ds_merge_all`. */
    template <class Others> outcome<> merge_all(Others &&others)
    {
        static_assert(std::is_standard_layout_v<Sketch> && sizeof(Sketch) == sizeof(ds_sketch));
        span<Sketch> sketches = span_of<Sketch>(others);
        auto *handles = reinterpret_cast<ds_sketch *>(sketches.data());
        return done(ds_check_handles(ds_merge_all, &handle_, handles, sketches.size()));
    }

    /* Removes all items and weights: `ds_reset`. */
    outcome<> reset() { return done(ds_reset(&handle_)); }

    /* Returns a number of the sketch, as DS_NUMBER_TOTAL_WEIGHT: `ds_number`. */
    outcome<std::uint64_t> number(std::int32_t which) { return written<std::uint64_t>(ds_number, &handle_, which); }

    /* Returns all numbers of the sketch. Those of other kinds are 0: `ds_get_status`. */
    outcome<ds_status> status() { return written<ds_status>(ds_get_status, &handle_); }

    /* Returns how many bytes the sketch takes: `ds_memory_bytes`. */
    outcome<std::size_t> memory_bytes() { return written<std::size_t>(ds_memory_bytes, &handle_); }

    /* Returns a copy: `ds_clone`. */
    outcome<Sketch> clone() { return made<Sketch>(ds_clone, &handle_); }

    /* Makes the sketch shared, so that no call changes it until `thaw()`: `ds_freeze`. */
    outcome<> freeze() { return done(ds_freeze(&handle_)); }

    /* Returns another object of the same shared sketch, for another thread: `ds_share`. It copies no sketch. */
    outcome<Sketch> share() { return made<Sketch>(ds_share, &handle_); }

    /* Returns whether no other object shares the sketch. Then calls may change it again: `ds_thaw`. */
    outcome<bool> thaw() { return yes(ds_thaw(&handle_)); }

protected:
    /* Makes the call on an item, with more arguments. */
    template <class Call, class Item, class... More> std::int32_t on_item(Call call, const Item &item, More... more)
    {
        return detail::on_item<As>(item, [&](const ds_item *plain) { return call(&handle_, plain, more...); });
    }

    /* Makes the call on items, alone or with as many weights or results. */
    template <class Call, class Items, class... Other> std::int32_t on_items(Call call, Items &items, span<Other>... others)
    {
        return detail::on_items<As>(items, others..., [&](auto... parts) { return call(&handle_, parts...); });
    }

    /* Returns the results of the call on items. */
    template <class T, class Call, class Items> outcome<std::vector<T>> results_of(Call call, Items &items)
    {
        return detail::results_of<As, T>(items, [&](auto... parts) { return call(&handle_, parts...); });
    }

    ds_sketch handle_ = DS_NONE;
};

/* What Count-Min sketches and frequent items have too: items with weights in `W`. */
template <class Sketch, class As, class W> class weighted : public owner<Sketch, As> {
public:
    /* Adds 1, or a weight, to the item's: `ds_update`, or `ds_count_min_i64_update` for weights in `std::int64_t`. */
    template <class Item> outcome<> update(const Item &item) { return update(item, W{1}); }
    template <class Item, class Weight> outcome<> update(const Item &item, const Weight &weight)
    {
        if constexpr (std::is_signed_v<W>)
            return done(this->on_item(ds_count_min_i64_update, item, to_weight<W>(weight)));
        else
            return done(this->on_item(ds_update, item, to_weight<W>(weight)));
    }

    /* Adds 1 to the weight of each item: `ds_update_all`. If an item's own update returns an error, the items before it are
     * added. */
    template <class Items> outcome<> update_all(Items &&items) { return done(this->on_items(ds_update_all, items)); }
    template <class Item> outcome<> update_all(std::initializer_list<Item> items)
    {
        return done(this->on_items(ds_update_all, items));
    }

    /* Adds to each item's weight one of a contiguous range of as many weights in `W`: `ds_update_all_weighted` and
     * `ds_count_min_i64_update_all_weighted`. If the total has no room for all weights of items that are passed whole, or of a
     * block, none of them is added. If memory runs out at an item, the items before it are added. */
    template <class Items, class Weights> outcome<> update_all(Items &&items, const Weights &weights)
    {
        auto plain = span_of<const W>(weights);
        if constexpr (std::is_signed_v<W>)
            return done(this->on_items(ds_count_min_i64_update_all_weighted, items, plain));
        else
            return done(this->on_items(ds_update_all_weighted, items, plain));
    }

    /* Adds the weight of each record to that of the record's item: `ds_update_fields`. Writes what was read, and where the first record
     * with an error begins. */
    outcome<> update_fields(std::string_view bytes, const ds_fields &fields, ds_fields_read &read)
    {
        return done(ds_check_fields(ds_update_fields, &this->handle_, bytes_of(bytes).bytes, bytes.size(), &fields, &read));
    }
};

/* What filters and Count-Min sketches have too. */
template <class Sketch> class comparable {
public:
    /* Returns whether both sketches are equal: `ds_equal`. The sketch itself as the other is DS_BAD_ARGUMENT. */
    outcome<bool> equal(Sketch &other)
    {
        return yes(ds_check_two_handles(ds_equal, static_cast<Sketch *>(this)->get(), other.get()));
    }
#ifndef DATASKETCHES_NO_EXCEPTIONS
    friend bool operator==(Sketch &a, Sketch &b) { return a.equal(b); }
    friend bool operator!=(Sketch &a, Sketch &b) { return !a.equal(b); }
#endif
};

/* The bytes of an image that is queried in place. */
class image_in_place {
public:
    constexpr span<const std::uint8_t> bytes() const noexcept { return image_; }

protected:
    constexpr explicit image_in_place(span<const std::uint8_t> image) noexcept : image_(image) {}

    /* Makes a C call on the image. */
    template <class Call, class... Parts> std::int32_t on_image(Call call, Parts... parts) const
    {
        return is_missing(image_) ? DS_BAD_ARGUMENT : call(place(image_), image_.size(), parts...);
    }

private:
    span<const std::uint8_t> image_;
};

} /* namespace detail */

} /* inline namespace */
} /* namespace datasketches */

#endif
