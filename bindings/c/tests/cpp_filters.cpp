/* Checks the filters of `datasketches.hpp`, and items and ranges of items in calls on them. See `cpp.cpp`. */
#include <deque>
#include <forward_list>
#include <list>
#include <set>
#include <sstream>

#include "cpp_check.h"

template <class Item> image inserted(const Item &item)
{
    filter made = new_filter();
    DONE(made.insert(item));
    CHECK(take(made.contains(item)));
    return take(made.serialize());
}

template <class Items> image all_inserted(Items &&items)
{
    filter made = new_filter();
    DONE(made.insert_all(items));
    return take(made.serialize());
}

static void single_items()
{
    const std::string word = "apple";
    const char chars[] = "apple", *start = chars;
    CHECK(inserted(word) == of_strings({"apple"}) && inserted("apple") == of_strings({"apple"}));
    CHECK(inserted(std::string_view(word)) == of_strings({"apple"}) && inserted(start) == of_strings({"apple"}));
    CHECK(inserted(std::string("a\0b", 3)) == of_strings({std::string("a\0b", 3)}));
    CHECK(inserted("") == of_strings({""}) && inserted(std::string_view()) == of_strings({""}));
    CHECK(inserted(static_cast<signed char>(-1)) == of_i64({-1}) && inserted(short{-2}) == of_i64({-2}));
    CHECK(inserted(-3) == of_i64({-3}));
    CHECK(inserted(-4L) == of_i64({-4}) && inserted(-5LL) == of_i64({-5}) && inserted(std::uint8_t{255}) == of_u64({255}));
    CHECK(inserted(std::uint16_t{65535}) == of_u64({65535}) && inserted(~0u) == of_u64({0xffffffff}));
    CHECK(inserted(~0ul) == of_u64({UINT64_MAX}) && inserted(~0ull) == of_u64({UINT64_MAX}));
    /* a number from 0 to 2^63 - 1 is the same item in each type */
    CHECK(inserted(7) == inserted(7ull) && inserted(-1) != inserted(1));

    filter made = new_filter();
    FAILS(DS_INVALID_UTF8, made.insert("\xff"));
    FAILS(DS_INVALID_UTF8, made.contains("\xff"));
    CHECK(!take(made.contains("apple")) && !take(made.contains(7)) && !take(made.contains(7u)));
}

/* An iterator whose strings live until the next step: it returns temporaries, and says that it is walked once. */
struct temporaries {
    using iterator_category = std::input_iterator_tag;
    using value_type = std::string;
    using difference_type = std::ptrdiff_t;
    using pointer = void;
    using reference = std::string;
    std::size_t at;
    std::string operator*() const
    {
        return "temporary string number " + std::to_string(at);
    }
    temporaries &operator++()
    {
        at++;
        return *this;
    }
    bool operator!=(const temporaries &other) const
    {
        return at != other.at;
    }
    bool operator==(const temporaries &other) const
    {
        return at == other.at;
    }
};

/* The same, but it says that it is walked more than once. */
struct repeated_temporaries : temporaries {
    using iterator_category = std::forward_iterator_tag;
    repeated_temporaries &operator++()
    {
        at++;
        return *this;
    }
};

template <class Iterator> struct between {
    Iterator first, last;
    Iterator begin() const
    {
        return first;
    }
    Iterator end() const
    {
        return last;
    }
};

/* Offsets that are missing, descending, or behind the end, which reject all strings. */
template <class Offset> void bad_offsets()
{
    filter made = new_filter();
    const Offset ends[4] = {1, 2, 1, 4};
    const char *none = nullptr;
    bool found[2] = {true, true};
    for (const auto &items :
         {ds::offset_strings("abc", ends, 3), ds::offset_strings("abc", ends + 2, 2), ds::offset_strings("abc", ends, 0),
          ds::offset_strings("", static_cast<const Offset *>(nullptr), 0)}) {
        FAILS(DS_BAD_OFFSETS, made.insert_all(items));
        FAILS(DS_BAD_OFFSETS, made.contains_all(items, found));
        FAILS(DS_BAD_OFFSETS, made.contains_all(items));
    }
    for (const auto &items : {ds::offset_strings("abc", static_cast<const Offset *>(nullptr), 3),
                              ds::offset_strings(std::string_view(none, 3), ends, 2)}) {
        FAILS(DS_BAD_ARGUMENT, made.insert_all(items));
        FAILS(DS_BAD_ARGUMENT, made.contains_all(items, found));
        FAILS(DS_BAD_ARGUMENT, made.contains_all(items));
    }
    CHECK(found[0] && found[1] && take(made.status()).bits_used == 0);
    FAILS(DS_INVALID_UTF8, made.insert_all(ds::offset_strings("a\xff", std::array<Offset, 3>{0, 1, 2}.data(), 3)));
    /* the first offset may be above 0 */
    DONE(made.insert_all(ds::offset_strings("abc", ends, 2)));
    CHECK(take(made.serialize()) == of_strings({"b"}));
    CHECK(take(made.contains_all(ds::offset_strings("abc", ends, 1))).empty());
}

/* Ranges of strings of each size around the blocks, and of each kind. */
static void ranges_of_strings()
{
    for (std::size_t count : {0, 1, 2, 1023, 1024, 1025, 2048, 3000}) {
        std::vector<std::string> items;
        std::string lines;
        for (std::size_t i = 0; i < count; i++) {
            items.push_back("temporary string number " + std::to_string(i));
            lines += "item" + std::to_string(i) + '\n';
        }
        image wanted = of_strings(items);
        std::vector<std::string_view> views(items.begin(), items.end());
        std::vector<const char *> pointers;
        std::vector<ds_string> pairs;
        std::string bytes;
        std::vector<std::uint64_t> offsets{0};
        std::vector<std::int32_t> offsets32{0};
        for (auto &item : items) {
            pointers.push_back(item.c_str());
            pairs.push_back({reinterpret_cast<const std::uint8_t *>(item.data()), item.size()});
            bytes += item;
            offsets.push_back(bytes.size());
            offsets32.push_back(static_cast<std::int32_t>(bytes.size()));
        }
        const auto of64 = ds::offset_strings(bytes, offsets.data(), offsets.size());
        const auto of32 = ds::offset_strings(bytes, offsets32.data(), offsets32.size());
        CHECK(all_inserted(items) == wanted && all_inserted(views) == wanted && all_inserted(pointers) == wanted);
        CHECK(all_inserted(pairs) == wanted && all_inserted(ds::span(pairs.data(), pairs.size())) == wanted);
        CHECK(all_inserted(std::list<ds_string>(pairs.begin(), pairs.end())) == wanted);
        CHECK(all_inserted(of64) == wanted && all_inserted(of32) == wanted);
        CHECK(all_inserted(std::list<std::string>(items.begin(), items.end())) == wanted);
        CHECK(all_inserted(std::forward_list<std::string>(items.begin(), items.end())) == wanted);
        CHECK(all_inserted(std::set<std::string>(items.begin(), items.end())) == wanted);
        CHECK(all_inserted(between<temporaries>{{0}, {count}}) == wanted);
        CHECK(all_inserted(between<repeated_temporaries>{{{0}}, {{count}}}) == wanted);
        /* this iterator keeps one string, and returns a reference to it */
        std::istringstream stream(lines);
        std::vector<std::string> words;
        for (std::size_t i = 0; i < count; i++) words.push_back("item" + std::to_string(i));
        CHECK(all_inserted(between<std::istream_iterator<std::string>>{std::istream_iterator<std::string>(stream), {}}) ==
              of_strings(words));

        /* results: a vector, and a range of the caller's */
        filter made = new_filter();
        for (std::size_t i = 0; i < count; i += 3) DONE(made.insert(items[i]));
        std::unique_ptr<bool[]> found(new bool[count + 1]());
        bool same = true;
        auto returned = take(made.contains_all(std::list<std::string>(items.begin(), items.end())));
        DONE(made.contains_all(views, ds::span(found.get(), count)));
        CHECK(returned.size() == count && take(made.contains_all(pairs)) == returned);
        CHECK(take(made.contains_all(of64)) == returned && take(made.contains_all(of32)) == returned);
        for (std::size_t i = 0; i < count; i++)
            same &= returned[i] == found[i] && found[i] == take(made.contains(items[i])) && (found[i] || i % 3 != 0);
        CHECK(same);
        found[count] = true;
        FAILS(DS_NO_ROOM, made.contains_all(views, ds::span(found.get(), count + 1)));
        FAILS(DS_NO_ROOM, made.contains_all(pairs, ds::span(found.get(), count + 1)));
        FAILS(DS_NO_ROOM, made.contains_all(of32, ds::span(found.get(), count + 1)));
        FAILS(DS_BAD_ARGUMENT, made.contains_all(views, ds::span(static_cast<bool *>(nullptr), count + 1)));
        FAILS(DS_BAD_ARGUMENT, made.contains_all(of32, ds::span(static_cast<bool *>(nullptr), count + 1)));
        CHECK(found[count]);
    }
    filter made = new_filter();
    std::vector<std::string> bad(2000, "apple");
    bad[1500] = "\xff";
    FAILS(DS_INVALID_UTF8, made.insert_all(bad));
    CHECK(take(made.contains("apple")));
    made = new_filter();
    bad[3] = "\xff";
    FAILS(DS_INVALID_UTF8, made.insert_all(bad));
    CHECK(!take(made.contains("apple")));
    bad_offsets<std::uint64_t>();
    bad_offsets<std::int64_t>();
    bad_offsets<std::uint32_t>();
    bad_offsets<std::int32_t>();
    FAILS(DS_BAD_ARGUMENT, made.insert_all(ds::span(static_cast<const ds_string *>(nullptr), 1)));
    const char *none = nullptr;
    FAILS(DS_BAD_ARGUMENT, made.insert(std::string_view(none, 1)));
    FAILS(DS_BAD_ARGUMENT, made.insert_all(std::vector<std::string_view>{std::string_view(none, 1)}));
    DONE(made.insert_all(std::vector<std::string_view>{std::string_view()}));
    CHECK(take(made.contains("")));
    made = new_filter();
    DONE(made.insert_all({"pear", ""}));
    DONE(made.insert_all({std::string("plum")}));
    CHECK(take(made.contains_all({"pear", "", "plum", "apple"})) == std::vector<bool>{true, true, true, false});
}

/* Words or lines of a text, beside the same items as a range. */
template <class Parts> void parts_are(Parts parts, std::string_view text, const std::vector<std::string> &items)
{
    const auto all = parts(text);
    CHECK(all_inserted(all) == of_strings(items));

    filter made = new_filter(), one = take(filter::create(1 << 14, 3)), two = take(one.clone());
    for (std::size_t i = 0; i < items.size(); i += 2) DONE(made.insert(items[i]));
    std::vector<bool> wanted = take(made.contains_all(items));
    std::unique_ptr<bool[]> found(new bool[items.size() + 1]());
    DONE(made.contains_all(all, ds::span(found.get(), items.size())));
    CHECK(std::equal(wanted.begin(), wanted.end(), found.get()) && take(made.contains_all(all)) == wanted);
    found[items.size()] = true;
    FAILS(DS_NO_ROOM, made.contains_all(all, ds::span(found.get(), items.size() + 1)));
    if (!items.empty()) FAILS(DS_NO_ROOM, made.contains_all(all, ds::span(found.get(), items.size() - 1)));
    CHECK(std::equal(wanted.begin(), wanted.end(), found.get()) && found[items.size()]);
    CHECK(take(one.contains_and_insert_all(all)) == take(two.contains_and_insert_all(items)) && take(one.equal(two)));

    strings heavy = take(strings::create(64, 48, KEY)), heavy_too = take(heavy.clone());
    std::vector<std::uint64_t> weights;
    for (std::size_t i = 0; i < items.size(); i++) weights.push_back(i % 5 + 1);
    DONE(heavy.update_all(all));
    DONE(heavy.update_all(all, weights));
    DONE(heavy_too.update_all(items));
    DONE(heavy_too.update_all(items, weights));
    weights.push_back(1);
    FAILS(DS_NO_ROOM, heavy.update_all(all, weights));
    CHECK(take(heavy.serialize()) == take(heavy_too.serialize()));
    auto bounds = take(heavy.bounds_all(all));
    CHECK(bounds.size() == items.size());
    for (std::size_t i = 0; i < bounds.size(); i++) CHECK(bounds[i].estimate == take(heavy_too.bounds(items[i])).estimate);
}

static void words_and_lines()
{
    auto words = [](std::string_view text) { return ds::words(text); };
    auto lines = [](std::string_view text) { return ds::lines(text); };
    parts_are(words, "", {});
    parts_are(words, std::string_view(), {});
    parts_are(words, " \t\n\f\r", {});
    parts_are(words, "to", {"to"});
    parts_are(words, " to be\tor\nnot\fto\rbe ", {"to", "be", "or", "not", "to", "be"});
    parts_are(words, "a\vb  \xc2\xa0 c", {"a\vb", "\xc2\xa0", "c"});
    parts_are(lines, "", {});
    parts_are(lines, std::string_view(), {});
    parts_are(lines, "\n", {""});
    parts_are(lines, "to be", {"to be"});
    parts_are(lines, "to be\r\n\nor\n", {"to be", "", "or"});
    parts_are(lines, "\nto\rbe\n\n or", {"", "to\rbe", "", " or"});
    std::string text;
    std::vector<std::string> items;
    for (int i = 0; i < 3000; i++) {
        items.push_back("part" + std::to_string(i % 700));
        text += items.back() + '\n';
    }
    parts_are(words, text, items);
    parts_are(lines, text, items);

    filter made = new_filter();
    const char *none = nullptr;
    bool found[2] = {true, true};
    for (const auto &bad : {ds::words("to \xff"), ds::lines("to\n\xff")}) {
        FAILS(DS_INVALID_UTF8, made.insert_all(bad));
        FAILS(DS_INVALID_UTF8, made.contains_all(bad, found));
        FAILS(DS_INVALID_UTF8, made.contains_all(bad));
    }
    for (const auto &missing : {ds::words(std::string_view(none, 1)), ds::lines(std::string_view(none, 1))}) {
        FAILS(DS_BAD_ARGUMENT, made.insert_all(missing));
        FAILS(DS_BAD_ARGUMENT, made.contains_all(missing, found));
        FAILS(DS_BAD_ARGUMENT, made.contains_all(missing));
    }
    CHECK(found[0] && found[1] && take(made.status()).bits_used == 0);
    FAILS(DS_NO_SKETCH, filter().insert_all(ds::words("")));
}

template <class T> void ranges_of_numbers()
{
    for (std::size_t count : {0, 1, 1023, 1024, 1025, 2500}) {
        std::vector<T> items(count);
        for (std::size_t i = 0; i < count; i++) items[i] = static_cast<T>(i * 2654435761u - 77);
        std::vector<std::int64_t> as_i64(items.begin(), items.end());
        std::vector<std::uint64_t> as_u64(items.begin(), items.end());
        image wanted = std::is_signed_v<T> ? of_i64(as_i64) : of_u64(as_u64);
        const std::vector<T> &fixed = items;
        CHECK(all_inserted(items) == wanted && all_inserted(fixed) == wanted);
        CHECK(all_inserted(std::deque<T>(items.begin(), items.end())) == wanted);
        CHECK(all_inserted(std::list<T>(items.begin(), items.end())) == wanted);
        CHECK(all_inserted(ds::span(items.data(), count)) == wanted && all_inserted(ds::span(fixed.data(), count)) == wanted);

        filter made = new_filter();
        DONE(made.insert_all(ds::span(items.data(), count / 2)));
        std::unique_ptr<bool[]> found(new bool[count + 1]());
        auto returned = take(made.contains_all(items));
        DONE(made.contains_all(std::list<T>(items.begin(), items.end()), ds::span(found.get(), count)));
        bool same = true;
        for (std::size_t i = 0; i < count; i++)
            same &= returned[i] == found[i] && found[i] == take(made.contains(items[i])) && (found[i] || i >= count / 2);
        CHECK(same && returned.size() == count);
        FAILS(DS_NO_ROOM, made.contains_all(items, ds::span(found.get(), count + 1)));
        if (count > 0) FAILS(DS_BAD_ARGUMENT, made.contains_all(items, ds::span(static_cast<bool *>(nullptr), count)));
    }
    filter made = new_filter();
    if (sizeof(T) == 8) FAILS(DS_BAD_ARGUMENT, made.insert_all(ds::span(static_cast<const T *>(nullptr), 1)));
    T some[3] = {1, 2, 3};
    bool found[4];
    DONE(made.insert_all(some));
    DONE(made.insert_all({T{9}}));
    DONE(made.contains_all(std::array<T, 4>{1, 9, 3, 77}, found));
    CHECK(found[0] && found[1] && found[2] && !found[3]);
}

/* A handle of `datasketches.h` and its macros, in C++: arguments with commas too. */
static void c_calls()
{
    filter made = new_filter();
    const std::uint64_t numbers[2] = {1, 2};
    const ds_items items = ds_items_u64(numbers, 2), missing = ds_items_u64(nullptr, 1);
    CHECK(ds_bloom_contains_and_insert_all(made.get(), &items, std::array<bool, 2>{}.data(), 2) == DS_OK);
    CHECK(take(made.contains(2)) && ds_bloom_insert_all(made.get(), &missing) == DS_BAD_ARGUMENT);
    /* a call may put a sketch of another kind into the handle */
    CHECK(ds_count_min_new(made.get(), DS_COUNT_MIN_U64, 3, 64, 9001) == DS_OK);
    FAILS(DS_WRONG_KIND, made.insert(1));
    ds_free(nullptr);
}

/* Inserts that return whether the item was there: as a query and an insert, in each form of items. */
static void contains_and_inserts()
{
    filter loop = take(filter::create(640, 3)), one = take(loop.clone());
    auto is_as_loop = [&](const auto &item) {
        bool there = take(loop.contains(item));
        DONE(loop.insert(item));
        return take(one.contains_and_insert(item)) == there;
    };
    for (int i = -30; i < 30; i++) CHECK(is_as_loop(i * i % 17) && is_as_loop(i));
    for (const char *string : {"a", "b", "a", ""}) CHECK(is_as_loop(string));
    CHECK(take(loop.equal(one)));
    std::vector<std::string> words;
    std::vector<std::uint64_t> items;
    std::list<std::int16_t> small;
    for (int i = 0; i < 2500; i++) {
        words.push_back("word " + std::to_string(i % 700));
        items.push_back(static_cast<std::uint64_t>(i) % 900);
        small.push_back(static_cast<std::int16_t>(i % 1200 - 40));
    }
    auto are_as_loop = [](const auto &range) {
        filter a = take(filter::create(1 << 14, 3)), b = take(a.clone()), c = take(a.clone());
        std::vector<bool> wanted;
        for (const auto &item : range) wanted.push_back(take(a.contains_and_insert(item)));
        std::unique_ptr<bool[]> results(new bool[wanted.size()]);
        DONE(b.contains_and_insert_all(range, ds::span(results.get(), wanted.size())));
        CHECK(take(c.contains_and_insert_all(range)) == wanted && std::equal(wanted.begin(), wanted.end(), results.get()));
        CHECK(take(a.equal(b)) && take(a.equal(c)) && wanted.back() && !wanted.front());
        FAILS(DS_NO_ROOM, b.contains_and_insert_all(range, ds::span(results.get(), wanted.size() - 1)));
    };
    are_as_loop(words);
    are_as_loop(items);
    are_as_loop(small);
    filter a = take(filter::create(640, 3));
    CHECK(take(a.contains_and_insert_all({7, 8, 7})) == std::vector<bool>{false, false, true});
    const std::uint64_t offsets[] = {0, 2, 4, 5};
    CHECK(take(a.contains_and_insert_all(ds::offset_strings("abab", offsets, 3))) == std::vector<bool>{false, true});
    FAILS(DS_BAD_OFFSETS, a.contains_and_insert_all(ds::offset_strings("abab", offsets, 4)));
    FAILS(DS_INVALID_UTF8, a.contains_and_insert("\xff"));
    FAILS(DS_NO_SKETCH, filter().contains_and_insert(1));
}

static void filters()
{
    filter a = new_filter(), b = new_filter();
    CHECK(take(filter::suggest_num_bits(1000, 100)) == 9603 && take(filter::suggest_num_hashes(9603, 1000)) == 7);
    CHECK(take(filter::min_num_bits(100, 10000)) == 4000);
    FAILS(DS_BAD_NUM_BITS, filter::suggest_num_bits(0, 100));
    FAILS(DS_BAD_NUM_HASHES, filter::suggest_num_hashes(9603, 0));
    FAILS(DS_BAD_NUM_BITS, filter::create(0, 7));
    FAILS(DS_BAD_NUM_HASHES, filter::create(64, 0));
    DONE(a.insert_all(ds::words("to be\tor not")));
    DONE(b.insert_all(ds::lines("to be\r\nor not")));
    CHECK(take(a.serialize()) == of_strings({"to", "be", "or", "not"}));
    CHECK(take(b.serialize()) == of_strings({"to be", "or not"}));

    filter joined = take(a.clone());
    DONE(joined.merge(b));
    CHECK(take(joined.serialize()) == of_strings({"to", "be", "or", "not", "to be", "or not"}));
    CHECK(!take(a.contains("to be")) && take(b.contains("to be")));
    CHECK(!take(a.equal(b)) && !take(a.equal(joined)));
    DONE(joined.intersect(a));
    CHECK(take(joined.equal(a)) && take(a.equal(joined)));
    DONE(joined.difference(a));
    CHECK(take(joined.status()).bits_used == 0 && take(a.status()).bits_used > 0);
    FAILS(DS_BAD_ARGUMENT, a.merge(a));
    FAILS(DS_BAD_ARGUMENT, a.intersect(a));
    FAILS(DS_BAD_ARGUMENT, a.difference(a));
    FAILS(DS_BAD_ARGUMENT, a.equal(a));
    filter other = take(filter::create(64, 3, 7));
    FAILS(DS_MISMATCH, a.merge(other));
    auto status = take(other.status());
    CHECK(status.num_bits == 64 && status.num_hashes == 3 && status.seed == 7 && take(a.status()).seed == 9001);
    CHECK(take(other.memory_bytes()) == 8 && take(a.memory_bytes()) == 1 << 12);

    /* many filters, in a vector and in an array */
    std::vector<filter> many;
    for (int i = 0; i < 9; i++) {
        many.push_back(new_filter());
        DONE(many.back().insert(i));
    }
    filter all = new_filter();
    DONE(all.merge_all(many));
    CHECK(take(all.serialize()) == of_i64({0, 1, 2, 3, 4, 5, 6, 7, 8}) && take(many[3].serialize()) == of_i64({3}));
    DONE(many[0].merge_all(ds::span(&many[1], 2)));
    CHECK(take(many[0].serialize()) == of_i64({0, 1, 2}));
    FAILS(DS_BAD_ARGUMENT, many[4].merge_all(many));
    filter few[2];
    FAILS(DS_NO_SKETCH, all.merge_all(few));
    DONE(all.merge_all(std::vector<filter>()));
    DONE(all.reset());
    CHECK(take(all.status()).bits_used == 0);
}

/* Checks rows with a bitmap, which begins at each bit of three bytes, beside the rows that are there. */
template <class Rows, class Item> void rows_are(const Rows &rows, const std::vector<Item> &items)
{
    const std::uint8_t bits[] = {0x35, 0xc9, 0x5e, 0x01};
    for (std::size_t first_bit = 0; first_bit + items.size() <= 32; first_bit++) {
        const auto some = ds::with_validity(rows, bits, first_bit);
        std::vector<bool> there, wanted;
        std::vector<Item> kept;
        std::vector<std::uint64_t> weights, kept_weights;
        for (std::size_t i = 0; i < items.size(); i++) {
            there.push_back(bits[(first_bit + i) / 8] >> (first_bit + i) % 8 & 1);
            wanted.push_back(there[i] && i % 2 == 0);
            weights.push_back(there[i] ? i + 1 : UINT64_MAX);
            if (there[i]) kept.push_back(items[i]), kept_weights.push_back(i + 1);
        }
        CHECK(all_inserted(some) == all_inserted(kept));
        filter made = new_filter();
        for (std::size_t i = 0; i < items.size(); i += 2) DONE(made.insert(items[i]));
        CHECK(take(made.contains_all(some)) == wanted);
        counts one = take(counts::create(4, 64)), two = take(counts::create(4, 64));
        DONE(one.update_all(some, weights));
        DONE(two.update_all(kept, kept_weights));
        CHECK(take(one.equal(two)));
        std::vector<std::uint64_t> estimates = take(one.estimate_all(some)), of_kept = take(two.estimate_all(kept));
        CHECK(estimates.size() == items.size());
        for (std::size_t i = 0, k = 0; i < items.size(); i++) CHECK(estimates[i] == (there[i] ? of_kept[k++] : 0));
    }
    CHECK(all_inserted(ds::with_validity(rows, nullptr)) == all_inserted(items));
    CHECK(all_inserted(ds::with_validity(ds::with_validity(rows, bits), nullptr)) == all_inserted(items));
}

static void rows_with_bitmaps()
{
    const std::vector<std::uint64_t> items{7, UINT64_MAX, 3, 0, 5, 8, 13, 21, 34};
    const std::vector<unsigned long long> same(items.begin(), items.end());
    const std::vector<std::int64_t> with_sign{7, -1, 3, INT64_MIN, 0, -5, 8};
    const std::vector<std::string_view> words{"a", "", "b", "\xc3\xa4", "cd"};
    const auto *bytes = reinterpret_cast<const std::uint8_t *>("ab\xc3\xa4"
                                                               "cd");
    const std::vector<ds_string> pointed{{bytes, 1}, {bytes, 0}, {bytes + 1, 1}, {bytes + 2, 2}, {bytes + 4, 2}};
    const std::int32_t offsets[] = {0, 1, 1, 2, 4, 6};
    const std::uint64_t wide[] = {0, 1, 1, 2, 4, 6};
    rows_are(items, items);
    rows_are(same, items);
    rows_are(ds::span(items.data(), items.size()), items);
    rows_are(with_sign, with_sign);
    rows_are(pointed, words);
    rows_are(ds::offset_strings("ab\xc3\xa4"
                                "cd",
                                offsets, 6),
             words);
    rows_are(ds::offset_strings("ab\xc3\xa4"
                                "cd",
                                wide, 6),
             words);

    const std::uint8_t bits[] = {0x0d};
    signed_numbers heavy = take(signed_numbers::create(64, 48, KEY));
    DONE(heavy.update_all(ds::with_validity(with_sign, bits)));
    auto bounds = take(heavy.bounds_all(ds::with_validity(with_sign, bits)));
    CHECK(bounds.size() == 7 && bounds[0].estimate == 1 && bounds[1].upper_bound == 0 && bounds[3].lower_bound == 1);
    CHECK(take(heavy.status()).total_weight == 3);
    bool found[2] = {true, true};
    FAILS(DS_BAD_ARGUMENT, new_filter().insert_all(ds::with_validity(ds::words("a b"), bits)));
    FAILS(DS_BAD_ARGUMENT, new_filter().contains_all(ds::with_validity(ds::lines("a\nb"), bits), found));
    FAILS(DS_NO_ROOM, new_filter().contains_all(ds::with_validity(items, bits), found));
    CHECK(found[0] && found[1]);
}

int main()
{
    single_items();
    rows_with_bitmaps();
    ranges_of_strings();
    words_and_lines();
    ranges_of_numbers<std::uint64_t>();
    ranges_of_numbers<std::int64_t>();
    ranges_of_numbers<unsigned long long>();
    ranges_of_numbers<long long>();
    ranges_of_numbers<int>();
    ranges_of_numbers<std::uint16_t>();
    ranges_of_numbers<signed char>();
    c_calls();
    contains_and_inserts();
    filters();
    return report();
}
