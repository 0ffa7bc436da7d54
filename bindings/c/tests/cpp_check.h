/* What the checks of `datasketches.hpp` share: the results of calls in both forms, and images by C calls. */
#ifndef CPP_CHECK_H
#define CPP_CHECK_H

#include <datasketches.hpp>

#include <string>
#include <vector>

#include "check.h"

namespace ds = datasketches;

/* The error of a call, or DS_OK, and the value of a call that has one, in both forms. */
#ifdef DATASKETCHES_NO_EXCEPTIONS
template <class Call> std::int32_t code_of(Call call)
{
    auto got = call();
    return got.ok() ? static_cast<std::int32_t>(DS_OK) : got.code();
}
template <class T> T take(ds::result<T> got)
{
    return std::move(got).value();
}
#else
template <class Call> std::int32_t code_of(Call call)
{
    try {
        (void)call();
        return DS_OK;
    } catch (const ds::error &failed) {
        return failed.code();
    }
}
template <class T> T take(T got)
{
    return got;
}
#endif

#define DONE(...) CHECK(code_of([&] { return __VA_ARGS__; }) == DS_OK)
#define FAILS(code, ...) CHECK(code_of([&] { return __VA_ARGS__; }) == (code))

inline const ds::key KEY = {0x0706050403020100, 0x0f0e0d0c0b0a0908};
using image = std::vector<std::uint8_t>;
using filter = ds::bloom_filter;
using counts = ds::count_min_sketch<std::uint64_t>;
using signed_counts = ds::count_min_sketch<std::int64_t>;
using strings = ds::frequent_items<std::string>;
using numbers = ds::frequent_items<std::uint64_t>;
using signed_numbers = ds::frequent_items<std::int64_t>;

inline filter new_filter()
{
    return take(filter::create(1 << 15, 5));
}

/* The image of a filter into which C calls insert. */
template <class Insert> image by_c(Insert insert)
{
    ds_sketch handle = DS_NONE;
    image made(1 << 13);
    std::size_t written = 0;
    CHECK(ds_bloom_new(&handle, 1 << 15, 5, 9001) == DS_OK);
    insert(&handle);
    CHECK(ds_serialize(&handle, made.data(), made.size(), &written) == DS_OK);
    made.resize(written);
    ds_free(&handle);
    return made;
}

inline image of_strings(const std::vector<std::string> &items)
{
    return by_c([&](ds_sketch *handle) {
        for (auto &item : items)
            CHECK(ds_bloom_insert_string(handle, reinterpret_cast<const std::uint8_t *>(item.data()), item.size()) == DS_OK);
    });
}

inline image of_i64(const std::vector<std::int64_t> &items)
{
    return by_c([&](ds_sketch *handle) {
        for (auto item : items) CHECK(ds_bloom_insert_i64(handle, item) == DS_OK);
    });
}

inline image of_u64(const std::vector<std::uint64_t> &items)
{
    return by_c([&](ds_sketch *handle) {
        for (auto item : items) CHECK(ds_bloom_insert_u64(handle, item) == DS_OK);
    });
}

#endif
