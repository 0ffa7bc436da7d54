/* Two sources of one program: with exceptions it has `main`, and with DATASKETCHES_NO_EXCEPTIONS the other function. They share no
 * function of `datasketches.hpp`, since the same names would have other results. */
#include <datasketches.hpp>

#include <cstdio>

std::int32_t code_of_result();

#ifdef DATASKETCHES_NO_EXCEPTIONS

std::int32_t code_of_result()
{
    datasketches::bloom_filter seen = datasketches::bloom_filter::create(64, 1).value();
    if (!seen.insert("apple").ok() || !seen.contains("apple").value() || !seen.clone().value().equal(seen).value()) return DS_OK;
    return seen.insert("\xff").code();
}

#else

int main()
{
    std::int32_t code = DS_OK;
    datasketches::bloom_filter seen(64, 1);
    seen.insert("apple");
    try {
        seen.insert("\xff");
    } catch (const datasketches::error &failed) {
        code = failed.code();
    }
    datasketches::bloom_filter copy = seen.clone();
    bool holds = code == DS_INVALID_UTF8 && code_of_result() == DS_INVALID_UTF8 && seen.contains("apple") && copy == seen;
    if (holds) std::puts("both hold");
    return !holds;
}

#endif
