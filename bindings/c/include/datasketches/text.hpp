/* Hashes of bytes under a key, and chunks of a text. See `datasketches.hpp`. */
#ifndef DATASKETCHES_TEXT_HPP
#define DATASKETCHES_TEXT_HPP

#include "sketch.hpp"

namespace datasketches {
inline namespace DATASKETCHES_FORM {

/* Returns the hash to insert in place of an item that others choose: `ds_keyed_hash`. */
inline std::uint64_t keyed_hash(std::string_view bytes, key words) noexcept
{
    return ds_check_hash(ds_keyed_hash, detail::bytes_of(bytes).bytes, bytes.size(), words.k0, words.k1);
}

/* Returns the number of bytes through the last byte of white space, through the last LF, through the last end of a record of CSV, and
 * before the first that is not UTF-8: `ds_finished` and `ds_valid_utf8`. */
inline std::size_t finished_words(std::string_view text) noexcept
{
    return ds_check_chunk(ds_finished, DS_CHUNK_WORDS, detail::bytes_of(text).bytes, text.size(), 0);
}
inline std::size_t finished_lines(std::string_view text) noexcept
{
    return ds_check_chunk(ds_finished, DS_CHUNK_LINES, detail::bytes_of(text).bytes, text.size(), 0);
}
inline std::size_t finished_csv_records(std::string_view bytes, char delimiter = ',') noexcept
{
    return ds_check_chunk(ds_finished, DS_CHUNK_CSV_RECORDS, detail::bytes_of(bytes).bytes, bytes.size(),
                          static_cast<std::uint8_t>(delimiter));
}
inline std::size_t valid_utf8(std::string_view text) noexcept
{
    return ds_check_text(ds_valid_utf8, detail::bytes_of(text).bytes, text.size());
}

} /* inline namespace */
} /* namespace datasketches */

#endif
