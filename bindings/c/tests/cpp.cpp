/* Checks `datasketches.hpp`: its members beside the C calls that they make, and known results. Prints the checks that failed. Exits
 * with 1 if there is any. It is compiled with exceptions, and with DATASKETCHES_NO_EXCEPTIONS and -fno-exceptions, and so are
 * `cpp_filters.cpp` and `cpp_images.cpp`. */
#include <algorithm>
#include <csignal>
#include <cstring>
#include <limits>
#include <list>
#include <map>
#include <sys/wait.h>
#include <thread>
#include <unistd.h>

#include "cpp_check.h"

/* --- What the types say. --- */

template <class Sketch> constexpr bool moves_only()
{
    return !std::is_copy_constructible_v<Sketch> && !std::is_copy_assignable_v<Sketch> &&
           std::is_nothrow_move_constructible_v<Sketch> && std::is_nothrow_move_assignable_v<Sketch> &&
           std::is_nothrow_swappable_v<Sketch> && std::is_nothrow_default_constructible_v<Sketch> &&
           sizeof(Sketch) == sizeof(ds_sketch);
}
static_assert(moves_only<filter>() && moves_only<counts>() && moves_only<signed_counts>() && moves_only<strings>() &&
              moves_only<numbers>() && moves_only<signed_numbers>());
static_assert(!std::is_convertible_v<std::size_t, strings> && !std::is_assignable_v<counts &, signed_counts>);
static_assert(!std::is_copy_constructible_v<ds::frequent_rows<std::string>> &&
              std::is_nothrow_move_constructible_v<ds::frequent_rows<std::string>>);
static_assert(std::is_same_v<decltype(std::declval<numbers &>().clone()), ds::outcome<numbers>>);

/* --- Shares. --- */

template <class Sketch, class Create> void shares(Create create)
{
    Sketch a = create(), none, other = create();
    DONE(a.update_all({1u, 1u, 2u}));
    image before = take(a.serialize());
    FAILS(DS_NOT_SHARED, a.share());
    CHECK(take(a.thaw()));
    DONE(a.freeze());
    Sketch b = take(a.share()), c = take(b.share());
    CHECK(take(b.serialize()) == before && take(c.serialize()) == before);
    FAILS(DS_SHARED, a.update(1u));
    FAILS(DS_SHARED, b.merge(other));
    DONE(other.merge(b));
    CHECK(!take(a.thaw()) && take(take(b.clone()).serialize()) == before);
    Sketch copy = take(c.clone());
    DONE(copy.update(1u));
    a = std::move(c);
    CHECK(!take(a.thaw()) && take(a.serialize()) == before);
    b = create();
    CHECK(take(a.thaw()) && take(a.serialize()) == before);
    DONE(a.update(1u));
    CHECK(take(a.serialize()) == take(copy.serialize()));
    FAILS(DS_NO_SKETCH, none.freeze());
    FAILS(DS_NO_SKETCH, none.share());
    FAILS(DS_NO_SKETCH, none.thaw());
}

/* Each number of the header's table is that of the status, or one that the kind does not have. */
template <class Sketch> void numbers_of(Sketch &sketch)
{
    ds_status status = take(sketch.status());
#define IS_SAME(row, constant, type, member, text) \
    if (code_of([&] { return sketch.number(constant); }) == DS_WRONG_KIND) CHECK(status.member == 0); \
    else CHECK(take(sketch.number(constant)) == status.member);
    DS_SKETCH_NUMBERS(IS_SAME)
#undef IS_SAME
}

/* Each error of the header's table has its name and message. */
static void named_errors()
{
#define IS_NAMED(row, constant, its_name, its_message) \
    CHECK(std::string(ds::detail::result_code(constant).name()) == its_name); \
    CHECK(std::string(ds::detail::result_code(constant).message()) == its_message);
    DS_SKETCH_ERRORS(IS_NAMED)
#undef IS_NAMED
}

/* Each class has the number of its kind, and numbers of other kinds are 0. */
static void kinds()
{
    filter seen = take(filter::create(64, 3, 7));
    counts count = take(counts::create(3, 64, 7));
    signed_counts below = take(signed_counts::create(3, 64));
    strings heavy = take(strings::create(64));
    numbers of_u64 = take(numbers::create(64));
    signed_numbers of_i64 = take(signed_numbers::create(64));
    numbers_of(seen), numbers_of(count), numbers_of(below), numbers_of(heavy), numbers_of(of_u64), numbers_of(of_i64);
    ds_status status = take(seen.status());
    CHECK(status.kind == filter::kind && filter::kind == DS_BLOOM && status.num_bits == 64 && status.total_weight == 0);
    status = take(count.status());
    CHECK(status.kind == counts::kind && counts::kind == DS_COUNT_MIN_U64 && status.num_bits == 0 && status.seed == 7);
    CHECK(take(count.number(DS_NUMBER_NUM_HASHES)) == 3 && take(count.number(DS_NUMBER_KIND)) == DS_COUNT_MIN_U64);
    FAILS(DS_WRONG_KIND, count.number(DS_NUMBER_NUM_BITS));
    FAILS(DS_BAD_ARGUMENT, count.number(0));
    status = take(heavy.status());
    CHECK(status.kind == strings::kind && strings::kind == DS_FREQUENT_ITEMS_STRING && status.seed == 0);
    CHECK(take(below.status()).kind == DS_COUNT_MIN_I64 && signed_counts::kind == DS_COUNT_MIN_I64);
    CHECK(take(of_u64.status()).kind == DS_FREQUENT_ITEMS_U64 && numbers::kind == DS_FREQUENT_ITEMS_U64);
    CHECK(take(of_i64.status()).kind == DS_FREQUENT_ITEMS_I64 && signed_numbers::kind == DS_FREQUENT_ITEMS_I64);
    /* an image of another kind, and a seed or a key for a kind without */
    image written = take(seen.serialize());
    FAILS(DS_BAD_FAMILY, counts::deserialize(written, 1 << 20));
    CHECK(take(take(filter::deserialize(written, {8, KEY})).equal(seen)));
    CHECK(take(take(filter::deserialize(written, {8, 9001})).equal(seen)));
    CHECK(take(filter::deserialize_prefix(written, {8, 9001})).used == written.size());
}

/* Four threads read one filter, an object each. */
static void threads_of_shares()
{
    filter made = new_filter();
    for (int i = 0; i < 100; i++) DONE(made.insert(7 * i));
    std::vector<bool> wanted, got[4];
    for (int i = 0; i < 800; i++) wanted.push_back(take(made.contains(i)));
    DONE(made.freeze());
    FAILS(DS_SHARED, made.insert(1));
    std::vector<std::thread> threads;
    for (auto &found : got)
        threads.emplace_back(
            [&found](filter own) {
                for (int i = 0; i < 800; i++) found.push_back(take(own.contains(i)));
            },
            take(made.share()));
    for (auto &thread : threads) thread.join();
    for (auto &found : got) CHECK(found == wanted);
    CHECK(take(made.thaw()));
    DONE(made.insert(1));
}

/* --- Moves. --- */

template <class Sketch, class Create> void moves(Create create)
{
    Sketch a = create(), b = create(), none;
    DONE(a.update_all({1u, 1u, 2u}));
    std::size_t bytes = take(a.memory_bytes());
    image of_a = take(a.serialize()), of_b = take(b.serialize());
    CHECK(of_a != of_b);
    FAILS(DS_NO_SKETCH, none.memory_bytes());
    FAILS(DS_NO_SKETCH, none.clone());
    FAILS(DS_NO_SKETCH, none.merge(a));
    FAILS(DS_NO_SKETCH, a.merge(none));
    Sketch moved(std::move(a));
    FAILS(DS_NO_SKETCH, a.status());
    CHECK(take(moved.serialize()) == of_a && take(moved.memory_bytes()) == bytes);
    a = std::move(moved);
    FAILS(DS_NO_SKETCH, moved.status());
    CHECK(take(a.serialize()) == of_a);
    Sketch &same = a;
    a = std::move(same);
    CHECK(take(a.serialize()) == of_a);
    swap(a, b);
    CHECK(take(a.serialize()) == of_b && take(b.serialize()) == of_a);
    a.swap(b);
    CHECK(take(a.serialize()) == of_a && take(b.serialize()) == of_b);
    std::swap(a, none);
    CHECK(take(none.serialize()) == of_a);
    FAILS(DS_NO_SKETCH, a.serialize());
    /* a clone is another sketch */
    Sketch copy = take(none.clone());
    CHECK(take(copy.serialize()) == of_a && copy.get() != none.get());
    DONE(copy.update(3u, 7u));
    CHECK(take(none.serialize()) == of_a && take(copy.serialize()) != of_a);
    b = take(copy.clone());
    CHECK(take(b.serialize()) == take(copy.serialize()));
    std::vector<Sketch> grown;
    for (int i = 0; i < 40; i++) grown.push_back(take(copy.clone()));
    CHECK(take(grown[0].serialize()) == take(grown[39].serialize()));
}

/* --- Count-Min sketches. --- */

template <class W> void count_min()
{
    using sketch = ds::count_min_sketch<W>;
    sketch a = take(sketch::create(4, 128)), b = take(sketch::create(4, 128)), other = take(sketch::create(3, 128));
    CHECK(take(sketch::suggest_num_buckets(1000)) == 2719 && take(sketch::suggest_num_hashes(20)) == 3);
    FAILS(DS_BAD_NUM_BUCKETS, sketch::suggest_num_buckets(0));
    FAILS(DS_BAD_NUM_HASHES, sketch::suggest_num_hashes(1));
    FAILS(DS_BAD_NUM_HASHES, sketch::create(0, 128));
    FAILS(DS_ZERO_SEED_HASH, sketch::create(4, 128, 50541));

    DONE(a.update("apple"));
    DONE(a.update(std::string("apple"), W{88}));
    DONE(a.update("apple", std::uint8_t{1}));
    DONE(a.update(-3, W{2}));
    DONE(a.update(UINT64_MAX - 2));
    /* -3 and 2^64 - 3 have the same eight bytes */
    CHECK(take(a.estimate("apple")) == 90 && take(a.estimate(-3)) == 3 && take(a.estimate(UINT64_MAX - 2)) == 3);
    /* the margin is e * 93 / 128, rounded down */
    CHECK(take(a.upper_bound("apple")) == 91 && take(a.upper_bound(-3)) == 4 && take(a.upper_bound(UINT64_MAX - 2)) == 4);
    auto status = take(a.status());
    CHECK(status.total_weight == 93 && status.seed == 9001 && status.num_buckets == 128 && status.num_hashes == 4);
    CHECK(take(a.memory_bytes()) == 4 * 128 * 8 + 4 * 8);
    FAILS(DS_INVALID_UTF8, a.update("\xff"));
    FAILS(DS_INVALID_UTF8, a.estimate("\xff"));
    FAILS(DS_INVALID_UTF8, a.upper_bound("\xff"));

    DONE(b.update_all(ds::words("apple pear apple")));
    DONE(b.update_all(ds::lines("apple\nplum tree")));
    CHECK(take(b.estimate_all({"apple", "pear", "plum tree", "plum"})) == std::vector<W>{3, 1, 1, 0});
    CHECK(!take(a.equal(b)) && take(take(b.clone()).equal(b)));
    DONE(a.merge(b));
    CHECK(take(a.estimate("apple")) == 93 && take(b.estimate("apple")) == 3 && take(a.status()).total_weight == 98);
    FAILS(DS_BAD_ARGUMENT, a.merge(a));
    FAILS(DS_BAD_ARGUMENT, a.equal(a));
    FAILS(DS_MISMATCH, a.merge(other));
    std::vector<sketch> many;
    for (int i = 0; i < 5; i++) many.push_back(take(b.clone()));
    DONE(a.merge_all(many));
    CHECK(take(a.estimate("apple")) == 108);
    FAILS(DS_BAD_ARGUMENT, many[2].merge_all(many));
    DONE(a.reset());
    CHECK(take(a.estimate("apple")) == 0 && take(a.equal(b)) == false && take(a.status()).num_buckets == 128);
    DONE(a.merge(b));
    CHECK(take(a.equal(b)));
    FAILS(DS_NO_SKETCH, sketch().reset());

    /* many items of each form, with and without weights */
    const std::vector<std::uint64_t> unsigned_items{1, 2, 1};
    const std::vector<std::int64_t> signed_items{1, -2, 1};
    const std::vector<int> ints{1, -2, 1};
    const std::vector<std::string> words{"a", "b", "a"};
    const std::vector<W> weights{5, 6, 7}, fewer{5, 6};
    const std::uint64_t ends[4] = {0, 1, 2, 3};
    const std::uint32_t ends32[4] = {0, 1, 2, 3};
    auto same = [&](auto &&items, auto item, W of_one, auto &&...some) {
        sketch made = take(sketch::create(4, 1 << 12));
        W found[3] = {};
        DONE(made.update_all(items, some...));
        DONE(made.estimate_all(items, found));
        CHECK(take(made.estimate(item)) == of_one && found[0] == of_one && take(made.estimate_all(items))[2] == of_one);
        CHECK(take(made.status()).total_weight == static_cast<std::uint64_t>(of_one == 2 ? 3 : 18));
        FAILS(DS_NO_ROOM, made.estimate_all(items, ds::span(found, 2)));
        FAILS(DS_NO_ROOM, made.update_all(items, fewer));
        CHECK(take(made.status()).total_weight == static_cast<std::uint64_t>(of_one == 2 ? 3 : 18));
    };
    same(unsigned_items, 1u, 2);
    same(signed_items, 1, 2);
    same(ints, 1, 2);
    same(words, "a", 2);
    same(ds::offset_strings("aba", ends, 4), "a", 2);
    same(ds::offset_strings("aba", ends32, 4), "a", 2);
    same(ds::words("a b a"), "a", 2);
    same(ds::lines("a\nb\na"), "a", 2);
    same(unsigned_items, 1u, 12, weights);
    same(signed_items, 1, 12, weights);
    same(ints, 1, 12, weights);
    same(words, "a", 12, weights);
    same(std::list<const char *>{"a", "b", "a"}, "a", 12, weights);
    same(ds::offset_strings("aba", ends, 4), "a", 12, ds::span(weights.data(), weights.size()));
    same(ds::offset_strings("aba", ends32, 4), "a", 12, weights);
    same(ds::words("a b a"), "a", 12, weights);
    same(ds::lines("a\nb\na"), "a", 12, weights);

    /* items that are passed whole are one call: the last weight overflows, and none is added. Of 3000 strings the first two blocks
     * of 1024 are added. */
    sketch made = take(sketch::create(3, 64));
    std::vector<std::uint64_t> whole(3000, 7);
    std::vector<long long> whole_signed(3000, 7);
    std::string text;
    std::vector<std::uint32_t> offsets{0};
    for (int i = 0; i < 3000; i++) {
        text += "7\n";
        offsets.push_back(static_cast<std::uint32_t>(text.size()));
    }
    std::vector<std::string> parts(3000, "7");
    std::vector<W> heavy(3000, 1);
    heavy[2999] = std::numeric_limits<W>::max();
    FAILS(DS_WEIGHT_OVERFLOW, made.update_all(whole, heavy));
    FAILS(DS_WEIGHT_OVERFLOW, made.update_all(whole_signed, heavy));
    FAILS(DS_WEIGHT_OVERFLOW, made.update_all(ds::offset_strings(text, offsets.data(), offsets.size()), heavy));
    FAILS(DS_WEIGHT_OVERFLOW, made.update_all(ds::words(text), heavy));
    FAILS(DS_WEIGHT_OVERFLOW, made.update_all(ds::lines(text), heavy));
    CHECK(take(made.status()).total_weight == 0);
    FAILS(DS_WEIGHT_OVERFLOW, made.update_all(parts, heavy));
    CHECK(take(made.status()).total_weight == 2048 && take(made.estimate("7")) == 2048);
    heavy[2999] = 1;
    DONE(made.update_all(whole, heavy));
    FAILS(DS_BAD_ARGUMENT, made.update_all(whole, ds::span(static_cast<const W *>(nullptr), 3000)));
    CHECK(take(made.status()).total_weight == 5048);
    FAILS(DS_NO_SKETCH, sketch().update_all(std::vector<std::string>()));
    FAILS(DS_NO_SKETCH, sketch().update(1));
}

static void weights()
{
    signed_counts with_sign = take(signed_counts::create(4, 128));
    DONE(with_sign.update(4, -7));
    DONE(with_sign.update(4, short{2}));
    DONE(with_sign.update("a", 5u));
    DONE(with_sign.update_all(std::vector<long long>{4, 5}, std::vector<long long>{-1, 3}));
    CHECK(take(with_sign.estimate(4)) == -6 && take(with_sign.estimate("a")) == 5 && take(with_sign.status()).total_weight == 18);

    counts decaying = take(counts::create(4, 128));
    DONE(decaying.update(9, 100ull));
    DONE(decaying.decay(99, 100));
    CHECK(take(decaying.estimate(9)) == 99);
    DONE(decaying.halve());
    CHECK(take(decaying.estimate(9)) == 49);
    FAILS(DS_BAD_FRACTION, decaying.decay(2, 1));
}

/* --- Frequent items. --- */

template <class T> T item_of(std::uint64_t number)
{
    if constexpr (std::is_same_v<T, std::string>) return "item number " + std::to_string(number);
    else if constexpr (std::is_same_v<T, std::int64_t>) return -static_cast<std::int64_t>(number);
    else return number;
}

/* A report beside the exact counts: items with weights that differ, without errors. */
template <class T> void reports(std::size_t count)
{
    using sketch = ds::frequent_items<T>;
    sketch made = take(sketch::create(1 << 11));
    std::map<T, std::uint64_t> exact;
    for (std::uint64_t i = 0; i < count; i++) {
        DONE(made.update(item_of<T>(i * 7 % 1009), i + 1));
        exact[item_of<T>(i * 7 % 1009)] += i + 1;
    }
    std::size_t rows = 0;
    std::uint64_t before = UINT64_MAX;
    bool same = true;
    for (auto &[item, lower, estimate, upper] : take(made.rows(ds::error_type::no_false_negatives))) {
        auto found = exact.find(T(item));
        same &= found != exact.end() && found->second == estimate && lower == estimate && upper == estimate && estimate <= before;
        before = estimate;
        rows++;
    }
    CHECK(same && rows == exact.size());
    auto report = take(made.rows(ds::error_type::no_false_positives, count / 2));
    CHECK(report.size() ==
          static_cast<std::size_t>(std::count_if(exact.begin(), exact.end(), [&](auto &it) { return it.second > count / 2; })));
    CHECK(report.empty() == (count == 0) && std::distance(report.begin(), report.end()) == static_cast<long>(report.size()));
    if (report.empty()) return;
    /* a report moves with its strings, and does not depend on the sketch */
    T first(report[0].item);
    auto moved = std::move(report);
    DONE(made.reset());
    CHECK(T(moved[0].item) == first && moved[0].estimate == moved.begin()->upper_bound && moved[0].lower_bound > 0);
    CHECK(take(made.rows(ds::error_type::no_false_negatives)).empty());
    CHECK(exact.find(T(moved[moved.size() - 1].item)) != exact.end());
}

template <class T> void frequent()
{
    using sketch = ds::frequent_items<T>;
    sketch a = take(sketch::create(8)), b = take(sketch::create(64, 48)), c = take(sketch::create(64));
    CHECK(sketch::max_sample_size(8) == 6 && take(sketch::suggest_max_map_size(384)) == 1024);
    FAILS(DS_MAP_SIZE_TOO_LARGE, sketch::suggest_max_map_size(513));
    FAILS(DS_MAP_SIZE_NOT_POWER_OF_TWO, sketch::create(9));
    FAILS(DS_BAD_SAMPLE_SIZE, sketch::create(8, 5));
    FAILS(DS_BAD_SAMPLE_SIZE, sketch::create(8, 5, KEY));
    CHECK(take(a.status()).sample_size == 6 && take(a.status()).max_map_size == 8 && take(b.status()).sample_size == 48);

    /* seven items of weight 1 in a sketch of eight slots cause one purge, after which the error is 1 */
    for (std::uint64_t i = 0; i < 7; i++) DONE(a.update(item_of<T>(i)));
    auto bounds = take(a.bounds(item_of<T>(3)));
    CHECK(bounds.lower_bound == 0 && bounds.upper_bound == 1);
    DONE(a.update(item_of<T>(5), 5u));
    bounds = take(a.bounds(item_of<T>(5)));
    CHECK(bounds.lower_bound == 5 && bounds.estimate == 6 && bounds.upper_bound == 6);
    DONE(a.update(item_of<T>(6), std::uint8_t{1}));
    /* the upper bound of 2 exceeds the error, and the lower one of 1 does not */
    CHECK(take(a.rows(ds::error_type::no_false_negatives)).size() == 2);
    CHECK(take(a.rows(ds::error_type::no_false_negatives, 0, 1)).size() == 1);
    auto certain = take(a.rows(ds::error_type::no_false_positives));
    CHECK(certain.size() == 1 && T(certain[0].item) == item_of<T>(5) && certain[0].estimate == 6 && certain[0].lower_bound == 5 &&
          certain[0].upper_bound == 6);

    DONE(b.update(item_of<T>(5), 5u));
    DONE(a.merge(b));
    CHECK(take(a.bounds(item_of<T>(5))).lower_bound == 10 && take(a.status()).total_weight == 18);
    FAILS(DS_BAD_ARGUMENT, a.merge(a));
    std::vector<sketch> many;
    for (int i = 0; i < 5; i++) many.push_back(take(b.clone()));
    DONE(c.merge_all(many));
    CHECK(take(c.bounds(item_of<T>(5))).lower_bound == 25);
    FAILS(DS_BAD_ARGUMENT, many[1].merge_all(many));
    FAILS(DS_WEIGHT_OVERFLOW, c.update(item_of<T>(1), UINT64_MAX));
    DONE(c.set_sample_size(4));
    FAILS(DS_BAD_SAMPLE_SIZE, c.set_sample_size(3));
    CHECK(take(c.status()).sample_size == 4);
    DONE(c.reset());
    CHECK(take(c.status()).total_weight == 0 && take(c.status()).sample_size == 4);

    /* many items, with and without weights, in a vector and in a list */
    std::vector<T> items{item_of<T>(1), item_of<T>(2), item_of<T>(1)};
    std::list<T> linked(items.begin(), items.end());
    const std::vector<std::uint64_t> weights{5, 6, 7};
    ds_item_bounds found[3];
    DONE(c.update_all(items));
    DONE(c.update_all(linked));
    DONE(c.update_all(items, weights));
    DONE(c.update_all(linked, ds::span(weights.data(), 3)));
    CHECK(take(c.bounds(item_of<T>(1))).estimate == 28 && take(c.bounds(item_of<T>(2))).estimate == 14);
    DONE(c.bounds_all(items, found));
    CHECK(found[0].estimate == 28 && found[1].lower_bound == 14 && take(c.bounds_all(linked))[2].upper_bound == 28);
    FAILS(DS_NO_ROOM, c.bounds_all(items, ds::span(found, 2)));
    FAILS(DS_NO_ROOM, c.bounds_all(linked, ds::span(found, 2)));
    FAILS(DS_NO_ROOM, c.update_all(items, ds::span(weights.data(), 2)));
    FAILS(DS_NO_ROOM, c.update_all(linked, ds::span(weights.data(), 2)));
    FAILS(DS_BAD_ARGUMENT, c.update_all(items, ds::span(static_cast<const std::uint64_t *>(nullptr), 3)));
    CHECK(take(c.status()).total_weight == 42);

    /* under one key the images are the same, and under another one in another order */
    sketch keyed[3];
    for (std::uint64_t i = 0; i < 3; i++) {
        keyed[i] = take(sketch::create(1 << 10, 768, {KEY.k0 + i / 2, KEY.k1}));
        for (std::uint64_t item = 0; item < 300; item++) DONE(keyed[i].update(item_of<T>(item)));
    }
    image of_first = take(keyed[0].serialize());
    CHECK(of_first == take(keyed[1].serialize()) && of_first != take(keyed[2].serialize()));
    sketch read = take(sketch::deserialize(of_first.data(), of_first.size(), {1 << 20, KEY}));
    sketch other = take(sketch::deserialize(of_first, {1 << 20, {KEY.k1, KEY.k0}}));
    sketch drawn = take(sketch::deserialize(of_first, 1 << 20)), drawn_too = take(sketch::create(1 << 10));
    CHECK(take(read.serialize()) != take(other.serialize()) && take(drawn.serialize()) != take(read.serialize()));
    sketch by_c;
    const ds_image_options options = {1 << 20, 0, &KEY};
    CHECK(ds_deserialize(by_c.get(), sketch::kind, of_first.data(), of_first.size(), &options) == DS_OK);
    CHECK(take(read.serialize()) == take(by_c.serialize()));
    CHECK(take(read.serialize()) == take(take(sketch::deserialize(of_first, {1 << 20, KEY})).serialize()));
    CHECK(take(drawn.bounds(item_of<T>(299))).lower_bound == 1 && take(drawn_too.status()).num_active_items == 0);

    for (std::size_t count : {0, 1, 63, 64, 65, 900}) reports<T>(count);
}

static void frequent_strings()
{
    strings made = take(strings::create(64));
    const std::uint64_t ends[4] = {0, 1, 2, 3}, weights[3] = {5, 6, 7};
    ds_item_bounds found[3];
    DONE(made.update_all(ds::words("to be or not to be")));
    DONE(made.update_all(ds::lines("to\nbe here")));
    CHECK(take(made.bounds("to")).estimate == 3 && take(made.bounds(std::string_view("or"))).estimate == 1);
    CHECK(take(made.bounds("be here")).estimate == 1 && take(made.bounds("here")).estimate == 0);
    FAILS(DS_INVALID_UTF8, made.update_all(ds::words("\xff")));
    FAILS(DS_INVALID_UTF8, made.update("\xff"));
    FAILS(DS_INVALID_UTF8, made.bounds("\xff"));
    DONE(made.update_all(ds::offset_strings("aba", ends, 4)));
    DONE(made.update_all(ds::offset_strings("aba", ends, 4), weights));
    DONE(made.bounds_all(ds::offset_strings("aba", ends, 4), found));
    CHECK(found[0].estimate == 14 && found[1].estimate == 7 && take(made.bounds_all({"a", "be"}))[1].estimate == 2);
    const ds_string pairs[2] = {{reinterpret_cast<const std::uint8_t *>("a"), 1}, {reinterpret_cast<const std::uint8_t *>("c"), 1}};
    DONE(made.update_all(pairs));
    CHECK(take(made.bounds("a")).estimate == 15 && take(made.bounds("c")).estimate == 1 && take(made.bounds("")).estimate == 0);
    DONE(made.update(std::string_view(), 2u));
    CHECK(take(made.bounds("")).estimate == 2);
    /* rows of long strings: more bytes than the room that is tried first */
    strings long_ones = take(strings::create(64));
    for (char letter : {'a', 'b', 'c'}) DONE(long_ones.update(std::string(3000, letter), std::uint64_t(letter)));
    auto report = take(long_ones.rows(ds::error_type::no_false_positives));
    CHECK(report.size() == 3 && report[0].item == std::string(3000, 'c') && report[2].item == std::string(3000, 'a'));
    /* integers of types all whose values the sketch's type has */
    signed_numbers wide = take(signed_numbers::create(64));
    DONE(wide.update_all(std::vector<int>{-1, 2, -1}));
    DONE(wide.update(std::uint32_t{2}));
    CHECK(take(wide.bounds(-1)).estimate == 2 && take(wide.bounds(short{2})).estimate == 2);
    DONE(take(numbers::create(64)).update_all(std::vector<unsigned long long>{1, 2}));
}

/* --- Keys, hashes and text. --- */

static void text()
{
    const std::uint8_t bytes[2] = {'a', 'b'};
    CHECK(ds::keyed_hash("ab", KEY) == ds_keyed_hash(bytes, 2, KEY.k0, KEY.k1));
    CHECK(ds::keyed_hash("ab", KEY) != ds::keyed_hash("ab", {KEY.k1, KEY.k0}) && ds::keyed_hash({}, KEY) == 0xabac0158050fc4dc);
    CHECK(ds::finished_words("to be") == 3 && ds::finished_lines("to\nbe\nor") == 6 && ds::finished_words({}) == 0);
    CHECK(ds::finished_csv_records("a,\"b\nc\"\nd") == 8 && ds::finished_csv_records("\"a\nb", ';') == 0);
    CHECK(ds::valid_utf8("to\xff") == 2 && ds::valid_utf8("to") == 2 && ds::finished_lines("to be") == 0);
}

static void fields()
{
    const ds_fields columns = {DS_FIELDS_CSV, ',', 1, 0}, words = {DS_FIELDS_WORDS, 0, 0, DS_NO_FIELD};
    ds_fields_read read = {};
    strings heavy = take(strings::create(64));
    DONE(heavy.update_fields("5,\"a, b\"\n7,c\n", columns, read));
    CHECK(read.num_records == 2 && read.num_items == 2 && take(heavy.bounds("a, b")).estimate == 5);
    FAILS(DS_BAD_WEIGHT, heavy.update_fields("5,c\nx,c\n", columns, read));
    CHECK(read.offset == 4 && take(heavy.bounds("c")).estimate == 7);
    signed_counts signs = take(signed_counts::create(3, 64));
    DONE(signs.update_fields("-3,a\n", columns, read));
    CHECK(take(signs.estimate("a")) == -3);
    filter seen = new_filter();
    DONE(seen.insert_fields("a 1\n\nb\n", words, read));
    CHECK(read.num_records == 3 && read.num_items == 2 && take(seen.contains("b")) && !take(seen.contains("1")));
    DONE(seen.insert_fields({}, words, read));
    FAILS(DS_WRONG_KIND, take(numbers::create(64)).update_fields("1 2", words, read));
}

/* --- Errors. --- */

#ifdef DATASKETCHES_NO_EXCEPTIONS

/* Returns the signal that ends a child in which the call is made, or 0. */
template <class Call> int signal_of(Call call)
{
    int status = 0;
    std::fflush(stdout);
    pid_t child = fork();
    if (child == 0) {
        call();
        _exit(0);
    }
    return waitpid(child, &status, 0) == child && WIFSIGNALED(status) ? WTERMSIG(status) : 0;
}

static void errors()
{
    auto failed = filter::create(0, 7);
    CHECK(!failed.ok() && failed.code() == DS_BAD_NUM_BITS && std::strcmp(failed.name(), "BadNumBits") == 0);
    CHECK(std::strcmp(failed.message(), "num_bits out of range") == 0);
    auto made = filter::create(64, 1);
    CHECK(made.ok() && made.code() == DS_OK && std::strcmp(made.name(), "Ok") == 0);
    auto got = made.value().contains(1);
    CHECK(got.ok() && !got.value());
    auto done = made.value().insert("\xff");
    CHECK(!done.ok() && done.code() == DS_INVALID_UTF8 && std::strcmp(done.name(), "InvalidUtf8") == 0);
    CHECK(std::strcmp(done.message(), "invalid UTF-8") == 0 && made.value().insert(1).ok());
    CHECK(signal_of([&] { failed.value(); }) == SIGABRT && signal_of([&] { done.value(); }) == SIGABRT);
    CHECK(signal_of([&] { (void)filter::create(0, 7).value(); }) == SIGABRT && signal_of([&] { made.value(); }) == 0);
    static_assert(!std::is_convertible_v<ds::result<bool>, bool> && !std::is_constructible_v<bool, ds::result<bool>>);
}

#else

static void errors()
{
    try {
        filter made(0, 7);
        CHECK(!"a constructor throws");
    } catch (const std::runtime_error &failed) {
        CHECK(std::string(failed.what()) == "BadNumBits: num_bits out of range");
    }
    try {
        take(filter::create(64, 1)).insert("\xff");
        CHECK(!"a call throws");
    } catch (const ds::error &failed) {
        CHECK(failed.code() == DS_INVALID_UTF8 && std::strcmp(failed.name(), "InvalidUtf8") == 0);
        CHECK(std::strcmp(failed.message(), "invalid UTF-8") == 0);
    }
    FAILS(DS_BAD_NUM_BUCKETS, counts(4, 2));
    FAILS(DS_MAP_SIZE_TOO_SMALL, strings(4));
    FAILS(DS_BAD_SAMPLE_SIZE, numbers(8, 5));
    FAILS(DS_BAD_SAMPLE_SIZE, numbers(8, 5, KEY));

    filter a(64, 1, 7), b(64, 1, 7), c(64, 1);
    CHECK(a == b && a != c && a.status().seed == 7 && c.status().seed == ds::default_seed);
    a.insert(1);
    CHECK(a != b && !(a == b));
    counts d(4, 128, 7), e(4, 128, 7), f(4, 128);
    CHECK(d == e && d != f && d.status().seed == 7);
    e.update(1);
    CHECK(!(d == e) && d != e);
    strings g(64), h(64, 4), i(64, 4, KEY);
    CHECK(g.status().sample_size == 48 && h.status().sample_size == 4 && i.status().sample_size == 4);
    /* an error leaves the sketch as it was */
    FAILS(DS_MISMATCH, d.merge(f = counts(3, 128)));
    CHECK(d.status().total_weight == 0 && d.status().num_hashes == 4);
}

#endif

int main()
{
    moves<counts>([] { return take(counts::create(3, 64)); });
    moves<signed_counts>([] { return take(signed_counts::create(3, 64)); });
    moves<numbers>([] { return take(numbers::create(64, 48, KEY)); });
    moves<signed_numbers>([] { return take(signed_numbers::create(64, 48, KEY)); });
    shares<counts>([] { return take(counts::create(3, 64)); });
    shares<signed_counts>([] { return take(signed_counts::create(3, 64)); });
    shares<numbers>([] { return take(numbers::create(64, 48, KEY)); });
    shares<signed_numbers>([] { return take(signed_numbers::create(64, 48, KEY)); });
    threads_of_shares();
    kinds();
    named_errors();
    count_min<std::uint64_t>();
    count_min<std::int64_t>();
    weights();
    frequent<std::string>();
    frequent<std::uint64_t>();
    frequent<std::int64_t>();
    frequent_strings();
    text();
    fields();
    errors();
    return report();
}
