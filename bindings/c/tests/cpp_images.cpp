/* Checks what `datasketches.hpp` does with images, alone, one after another and in place. See `cpp.cpp`. */
#include <algorithm>
#include <cstring>

#include "cpp_check.h"

/* Images: the same as the C call's, in a vector and in a buffer, and read from each kind of range. */
static void images()
{
    filter made = new_filter(), empty = new_filter();
    DONE(made.insert_all({1, 2, 3}));
    image written = take(made.serialize());
    CHECK(take(made.serialized_size()) == written.size() && written.size() == 32 + 4096 && take(empty.serialized_size()) == 24);
    image buffer(written.size() + 8, 0xaa);
    CHECK(take(made.serialize(buffer.data(), buffer.size())) == written.size());
    CHECK(std::equal(written.begin(), written.end(), buffer.begin()) && buffer.back() == 0xaa);
    FAILS(DS_NO_ROOM, made.serialize(buffer.data(), written.size() - 1));
    FAILS(DS_BAD_ARGUMENT, made.serialize(nullptr, 1));
    FAILS(DS_NO_SKETCH, filter().serialize());
    FAILS(DS_NO_SKETCH, filter().serialized_size());

    filter read = take(filter::deserialize(written.data(), written.size(), 4096));
    CHECK(take(read.equal(made)) && take(read.contains(3)) && !take(read.contains(4)));
    FAILS(DS_TABLE_TOO_LARGE, filter::deserialize(written.data(), written.size(), 4095));
    FAILS(DS_INSUFFICIENT_DATA, filter::deserialize(written.data(), written.size() - 1, 4096));
    FAILS(DS_INSUFFICIENT_DATA, filter::deserialize(image(), 4096));
    FAILS(DS_BAD_ARGUMENT, filter::deserialize(nullptr, 1, 4096));
    std::string chars(written.begin(), written.end());
    std::vector<std::byte> bytes(written.size());
    std::memcpy(bytes.data(), written.data(), written.size());
    read = take(filter::deserialize(chars, 4096));
    empty = take(filter::deserialize(bytes, 4096));
    CHECK(take(read.equal(made)) && take(empty.equal(made)));
    FAILS(DS_TABLE_TOO_LARGE, filter::deserialize(written, 4095));

    counts count = take(counts::create(3, 64, 7));
    DONE(count.update("a", 5u));
    written = take(count.serialize());
    CHECK(written.size() == 24 + 3 * 64 * 8 && take(count.serialized_size()) == written.size());
    CHECK(take(take(counts::deserialize(written, {1 << 14, 7})).equal(count)));
    CHECK(take(take(counts::deserialize(written.data(), written.size(), {1 << 14, 7})).equal(count)));
    FAILS(DS_SEED_HASH_MISMATCH, counts::deserialize(written, 1 << 14));
    FAILS(DS_SEED_HASH_MISMATCH, counts::deserialize(written, {1 << 14, 9001}));
    FAILS(DS_TABLE_TOO_LARGE, counts::deserialize(written, {3 * 64 * 8, 7}));
    CHECK(take(count.serialize(buffer.data(), buffer.size())) == written.size());
    FAILS(DS_BAD_ARGUMENT, counts::deserialize(nullptr, 1, {1 << 14, 7}));

    /* a sketch of strings whose image is long, and one whose table is large and holds little */
    strings heavy = take(strings::create(1 << 10)), wide = take(strings::create(8));
    for (int i = 0; i < 500; i++) DONE(heavy.update("item " + std::to_string(i)));
    DONE(wide.update(std::string(100000, 'x')));
    for (strings *it : {&heavy, &wide}) {
        written = take(it->serialize());
        CHECK(written.size() == take(it->serialized_size()));
        strings same = take(strings::deserialize(written, 1 << 20)), keyed = take(strings::deserialize(written, {1 << 20, KEY}));
        CHECK(take(same.status()).total_weight == take(it->status()).total_weight);
        CHECK(take(keyed.status()).num_active_items == take(it->status()).num_active_items);
        FAILS(DS_TABLE_TOO_LARGE, strings::deserialize(written.data(), written.size(), 10));
        FAILS(DS_TABLE_TOO_LARGE, strings::deserialize(written.data(), written.size(), {10, KEY}));
    }
}

/* Appends a copy of some bytes. */
static void append(image &all, const image &more)
{
    all.insert(all.end(), more.begin(), more.end());
}

/* Images one after another, of two sketches of items and of an empty one, each read from the front of the rest. */
template <class T> static void frequent_prefixes(const T &first, const T &second)
{
    using sketch = ds::frequent_items<T>;
    sketch one = take(sketch::create(64)), two = take(sketch::create(8)), none = take(sketch::create(8));
    image all;
    DONE(one.update(first, 5u));
    DONE(one.update(second, 7u));
    DONE(two.update(second, 9u));
    for (sketch *it : {&one, &none, &two}) {
        image written = take(it->serialize());
        CHECK(take(it->serialized_size()) == written.size());
        append(all, written);
    }
    auto [read, used] = take(sketch::deserialize_prefix(all, 1 << 20));
    CHECK(used == take(one.serialized_size()) && take(read.bounds(first)).lower_bound == 5);
    CHECK(take(read.bounds(second)).upper_bound == 7 && take(read.status()).total_weight == 12);
    auto [empty, more] = take(sketch::deserialize_prefix(all.data() + used, all.size() - used, 1 << 20));
    CHECK(more == 8 && take(empty.status()).total_weight == 0 && take(empty.status()).max_map_size == 8);
    const ds::span rest(all.data() + used + more, all.size() - used - more);
    auto [last, end] = take(sketch::deserialize_prefix(rest, {1 << 20, KEY}));
    CHECK(end == rest.size() && take(last.bounds(second)).upper_bound == 9);
    CHECK(take(last.serialize()) == take(take(sketch::deserialize(rest, {1 << 20, KEY})).serialize()));
    FAILS(DS_INSUFFICIENT_DATA, sketch::deserialize_prefix(rest.data(), rest.size() - 1, {1 << 20, KEY}));
    FAILS(DS_INSUFFICIENT_DATA, sketch::deserialize_prefix(image(), 1 << 20));
    FAILS(DS_TABLE_TOO_LARGE, sketch::deserialize_prefix(all, 10));
    FAILS(DS_TABLE_TOO_LARGE, sketch::deserialize_prefix(all, {10, KEY}));
    FAILS(DS_BAD_ARGUMENT, sketch::deserialize_prefix(nullptr, 1, 1 << 20));
    FAILS(DS_BAD_ARGUMENT, sketch::deserialize_prefix(nullptr, 1, {1 << 20, KEY}));
    FAILS(DS_NO_SKETCH, sketch().serialize());
    FAILS(DS_NO_SKETCH, sketch().serialized_size());
}

/* The same for filters and counts. */
static void prefixes()
{
    filter one = new_filter(), none = take(filter::create(64, 1));
    DONE(one.insert_all({1, 2, 3}));
    image all = take(none.serialize());
    append(all, take(one.serialize()));
    append(all, image(9, 0xff));
    ds::prefix<filter> found = take(filter::deserialize_prefix(all, 8));
    CHECK(found.used == 24 && take(found.sketch.equal(none)));
    auto [read, used] = take(filter::deserialize_prefix(all.data() + 24, all.size() - 24, 4096));
    CHECK(used == 32 + 4096 && take(read.equal(one)));
    FAILS(DS_TABLE_TOO_LARGE, filter::deserialize_prefix(all.data() + 24, all.size() - 24, 4095));
    FAILS(DS_INSUFFICIENT_DATA, filter::deserialize_prefix(all.data() + 24, 32 + 4095, 4096));
    FAILS(DS_INSUFFICIENT_DATA, filter::deserialize_prefix(std::string(), 4096));
    FAILS(DS_BAD_ARGUMENT, filter::deserialize_prefix(nullptr, 1, 4096));

    counts count = take(counts::create(3, 64, 7));
    signed_counts below = take(signed_counts::create(2, 8, 7));
    DONE(count.update("a", 5u));
    DONE(below.update("a", -5));
    all = take(count.serialize());
    append(all, take(below.serialize()));
    auto [first, length] = take(counts::deserialize_prefix(all, {1 << 14, 7}));
    CHECK(length == 24 + 3 * 64 * 8 && take(first.equal(count)));
    auto [second, rest] = take(signed_counts::deserialize_prefix(all.data() + length, all.size() - length, {1 << 14, 7}));
    CHECK(rest == all.size() - length && take(second.equal(below)));
    FAILS(DS_SEED_HASH_MISMATCH, counts::deserialize_prefix(all, 1 << 14));
    FAILS(DS_TABLE_TOO_LARGE, counts::deserialize_prefix(all, {3 * 64 * 8, 7}));
    FAILS(DS_BAD_ARGUMENT, signed_counts::deserialize_prefix(nullptr, 1, {1 << 14, 7}));

    frequent_prefixes<std::string>("apple", "");
    frequent_prefixes<std::uint64_t>(1, UINT64_MAX);
    frequent_prefixes<std::int64_t>(1, INT64_MIN);
}

/* Images in place: the results of the sketches that are read from them, from each kind of range, and at an odd address. */
static void images_in_place()
{
    filter made = new_filter(), empty = new_filter();
    DONE(made.insert_all({1, 2, 3}));
    DONE(made.insert_all({"a", "bc"}));
    image written = take(made.serialize()), nothing = take(empty.serialize());
    image shifted(written.size() + 1);
    std::copy(written.begin(), written.end(), shifted.begin() + 1);
    const ds::bloom_filter_image one(written), two(shifted.data() + 1, written.size());
    const ds::bloom_filter_image of_span(ds::span(written.data(), written.size()));
    const std::string chars(written.begin(), written.end());
    const ds::bloom_filter_image of_chars(chars), of_view{std::string_view(chars)}, of_empty(nothing);
    for (const auto *it : {&one, &two, &of_span, &of_chars, &of_view}) {
        for (int i = -20; i < 20; i++) CHECK(take(it->contains(i)) == take(made.contains(i)));
        for (unsigned i = 0; i < 20; i++) CHECK(take(it->contains(i)) == take(made.contains(i)));
        for (const char *string : {"", "a", "b", "bc", "c"}) CHECK(take(it->contains(string)) == take(made.contains(string)));
    }
    CHECK(take(one.contains(std::string_view())) == take(made.contains("")) && !take(of_empty.contains(1)));
    const std::vector<std::string> words{"a", "", "bc", "c"};
    std::vector<std::int16_t> small;
    std::vector<std::int64_t> wide;
    for (std::int16_t i = -20; i < 1100; i++) {
        small.push_back(i);
        wide.push_back(i);
    }
    std::unique_ptr<bool[]> found(new bool[small.size()]());
    for (const auto *it : {&one, &two, &of_span, &of_chars, &of_view, &of_empty}) {
        filter &beside = it == &of_empty ? empty : made;
        CHECK(take(it->contains_all(words)) == take(beside.contains_all(words)));
        CHECK(take(it->contains_all(ds::words("a b bc"))) == take(beside.contains_all({"a", "b", "bc"})));
        CHECK(take(it->contains_all({1, 4})) == take(beside.contains_all({1, 4})));
        CHECK(take(it->contains_all(small)) == take(beside.contains_all(wide)) && take(it->contains_all(wide)).size() == 1120);
        DONE(it->contains_all(small, ds::span(found.get(), small.size())));
        bool same = true;
        for (std::size_t i = 0; i < small.size(); i++) same &= found[i] == take(beside.contains(small[i]));
        CHECK(same && take(it->contains_all(std::vector<int>())).empty());
    }
    FAILS(DS_NO_ROOM, one.contains_all(small, ds::span(found.get(), 1)));
    FAILS(DS_NO_ROOM, one.contains_all(wide, ds::span(found.get(), 1)));
    FAILS(DS_BAD_ARGUMENT, one.contains_all(wide, ds::span(static_cast<bool *>(nullptr), wide.size())));
    FAILS(DS_BAD_ARGUMENT, ds::bloom_filter_image(nullptr, 1).contains_all({1}));
    FAILS(DS_INSUFFICIENT_DATA, ds::bloom_filter_image(nullptr, 0).contains_all(std::vector<int>()));
    FAILS(DS_INVALID_UTF8, one.contains_all({"\xff"}));
    CHECK(one.bytes().data() == written.data() && one.bytes().size() == written.size());
    FAILS(DS_INVALID_UTF8, one.contains("\xff"));
    FAILS(DS_INSUFFICIENT_DATA, ds::bloom_filter_image(written.data(), written.size() - 1).contains(1));
    FAILS(DS_INSUFFICIENT_DATA, ds::bloom_filter_image(nullptr, 0).contains(1));
    FAILS(DS_BAD_ARGUMENT, ds::bloom_filter_image(nullptr, 1).contains(1));
    FAILS(DS_BAD_ARGUMENT, ds::bloom_filter_image(nullptr, 1).contains(1u));
    FAILS(DS_BAD_ARGUMENT, ds::bloom_filter_image(nullptr, 1).contains("a"));
    written[2] = 0;
    FAILS(DS_BAD_FAMILY, one.contains(1));
}

template <class W> static void counts_in_place()
{
    using sketch = ds::count_min_sketch<W>;
    sketch made = take(sketch::create(3, 16, 7));
    for (W i = 0; i < 9; i++) DONE(made.update(i, i));
    DONE(made.update(-3, W{4}));
    DONE(made.update("abc", W{5}));
    image written = take(made.serialize()), shifted(written.size() + 1);
    std::copy(written.begin(), written.end(), shifted.begin() + 1);
    const ds::count_min_image<W> one(written, 7), two(shifted.data() + 1, written.size(), 7);
    for (const auto *it : {&one, &two}) {
        for (int i = -20; i < 20; i++) CHECK(take(it->estimate(i)) == take(made.estimate(i)));
        for (unsigned i = 0; i < 20; i++) CHECK(take(it->estimate(i)) == take(made.estimate(i)));
        for (const char *string : {"", "abc", "b"}) CHECK(take(it->estimate(string)) == take(made.estimate(string)));
    }
    CHECK(one.bytes().data() == written.data() && two.bytes().size() == written.size());
    FAILS(DS_SEED_HASH_MISMATCH, ds::count_min_image<W>(written).estimate(1));
    FAILS(DS_INVALID_UTF8, one.estimate("\xff"));
    FAILS(DS_INSUFFICIENT_DATA, ds::count_min_image<W>(nullptr, 0).estimate(1));
    FAILS(DS_BAD_ARGUMENT, ds::count_min_image<W>(nullptr, 1).estimate("a"));
    sketch other = take(sketch::create(3, 16));
    image empty = take(other.serialize());
    CHECK(empty.size() == 16 && take(ds::count_min_image<W>(empty).estimate("abc")) == 0);
}

int main()
{
    images();
    prefixes();
    images_in_place();
    counts_in_place<std::uint64_t>();
    counts_in_place<std::int64_t>();
    return report();
}
