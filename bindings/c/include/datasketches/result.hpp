/* Errors: exceptions of the class `error`, or a `result` if `DATASKETCHES_NO_EXCEPTIONS` is defined. See `datasketches.hpp`. */
#ifndef DATASKETCHES_RESULT_HPP
#define DATASKETCHES_RESULT_HPP

#if __cplusplus < 201703L
#error "datasketches.hpp needs C++17"
#endif

#include "../datasketches.h"

#include <cstdint>
#include <cstdlib>
#include <optional>
#include <stdexcept>
#include <string>
#include <utility>

#if !defined(DATASKETCHES_NO_EXCEPTIONS) && !defined(__cpp_exceptions)
#define DATASKETCHES_NO_EXCEPTIONS
#endif

/* The two forms are different names to the linker, so that one program may have both. */
#ifdef DATASKETCHES_NO_EXCEPTIONS
#define DATASKETCHES_FORM results
#else
#define DATASKETCHES_FORM exceptions
#endif

namespace datasketches {
inline namespace DATASKETCHES_FORM {

namespace detail {

/* The number of a result. */
class result_code {
public:
    explicit result_code(std::int32_t code) noexcept : code_(code) {}

    /* Returns DS_OK, or the error's number, below 0, as DS_MISMATCH. */
    std::int32_t code() const noexcept { return code_; }

    /* Returns the name, as "Mismatch", and the message of the code: see `ds_result_name`. */
    const char *name() const noexcept { return ds_result_name(code_); }
    const char *message() const noexcept { return ds_result_message(code_); }

private:
    std::int32_t code_;
};

} /* namespace detail */

#ifdef DATASKETCHES_NO_EXCEPTIONS

/* A value, or the error of a call. */
template <class T> class [[nodiscard]] result : public detail::result_code {
public:
    explicit result(T value) : result_code(DS_OK), value_(std::move(value)) {}

    /* An error: a number below 0, as DS_MISMATCH. */
    static result failed(std::int32_t code) { return result(code, std::nullopt); }

    /* Returns whether there is a value. */
    bool ok() const noexcept { return value_.has_value(); }

    /* Returns the value. Ends the program by `std::abort` if there is none. */
    T &value() &
    {
        if (!value_) std::abort();
        return *value_;
    }

    T value() &&
    {
        if (!value_) std::abort();
        return std::move(*value_);
    }

private:
    result(std::int32_t code, std::nullopt_t none) : result_code(code), value_(none) {}

    std::optional<T> value_;
};

/* The result of a call that returns no value. */
template <> class [[nodiscard]] result<void> : public detail::result_code {
public:
    result() noexcept : result_code(DS_OK) {}
    static result failed(std::int32_t code) { return result(code); }
    bool ok() const noexcept { return code() >= 0; }

    /* Ends the program by `std::abort` if there is an error. */
    void value() const
    {
        if (!ok()) std::abort();
    }

private:
    explicit result(std::int32_t code) noexcept : result_code(code) {}
};

template <class T = void> using outcome = result<T>;

namespace detail {

inline outcome<> done(std::int32_t code) { return code < 0 ? outcome<>::failed(code) : outcome<>(); }

template <class T> outcome<T> done(std::int32_t code, T value)
{
    return code < 0 ? outcome<T>::failed(code) : outcome<T>(std::move(value));
}

} /* namespace detail */

#else

/* The error of a call. `what()` is its name and message, as "Mismatch: shapes or seeds differ". */
class error : public std::runtime_error, public detail::result_code {
public:
    explicit error(std::int32_t code)
        : std::runtime_error(std::string(ds_result_name(code)) + ": " + ds_result_message(code)), result_code(code)
    {
    }
};

template <class T = void> using outcome = T;

namespace detail {

inline void done(std::int32_t code)
{
    if (code < 0) throw error(code);
}

template <class T> T done(std::int32_t code, T value)
{
    done(code);
    return value;
}

} /* namespace detail */

#endif

namespace detail {

/* Returns whether a call that did not fail returned DS_YES. */
inline outcome<bool> yes(std::int32_t code) { return done(code, code == DS_YES); }

/* Returns the value that a call writes to its last argument. */
template <class T, class Call, class... Parts> outcome<T> written(Call call, Parts... parts)
{
    T value = {};
    std::int32_t code = call(parts..., &value);
    return done(code, std::move(value));
}

} /* namespace detail */

} /* inline namespace */
} /* namespace datasketches */

#endif
