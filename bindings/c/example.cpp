/* Reads words from standard input, and prints the most frequent ones and how many different ones came, in memory that does not
 * grow.
 *
 *     $ printf 'to be or not to be' | ./example
 *     be: 2, between 2 and 2
 *     to: 2, between 2 and 2
 *     6 words, 4 of them for the first time
 */
#include <algorithm>
#include <datasketches.hpp>
#include <iostream>
#include <string>
#include <vector>

int main()
try {
    datasketches::frequent_items<std::string> heavy(1024);
    datasketches::bloom_filter seen(1 << 16, 7);
    unsigned long words = 0, first = 0;

    for (std::string word; std::cin >> word;) {
        /* skips a word that is not UTF-8 */
        if (datasketches::valid_utf8(word) < word.size()) continue;
        words++;
        first += !seen.contains(word);
        seen.insert(word);
        heavy.update(word);
    }
    auto report = heavy.rows(datasketches::error_type::no_false_positives, 1);
    /* rows of equal estimates come in any order */
    std::vector<std::string> lines;
    for (auto &[word, lower, estimate, upper] : report)
        lines.push_back(std::string(word) + ": " + std::to_string(estimate) + ", between " + std::to_string(lower) + " and " +
                        std::to_string(upper));
    std::sort(lines.begin(), lines.end());
    for (auto &line : lines) std::cout << line << '\n';
    std::cout << words << " words, " << first << " of them for the first time\n";
} catch (const datasketches::error &failed) {
    std::cerr << failed.what() << '\n';
    return 1;
}
