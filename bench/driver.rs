//! Times the proved crates and plain Rust in one process, and prints a table. Words choose the rows whose names contain each of
//! them. `--names` prints only the names, and `--once NAME` runs the row of that name once.

mod plain;
mod rows;
mod timing;

use timing::Task;

fn main() {
    let mut words: Vec<String> = std::env::args().skip(1).collect();
    let task = match words.first().map(String::as_str) {
        Some("--names") => Task::Name,
        Some("--once") => Task::RunOnce,
        _ => Task::Time,
    };
    if task != Task::Time {
        words.remove(0);
    }
    timing::keep_memory();
    let table = timing::Table::new(words, task);
    rows::hashes::rows(&table);
    rows::filters::rows(&table);
    rows::count_min::rows(&table);
    rows::frequent::rows(&table);
    rows::keyed::rows(&table);
    rows::program::rows(&table);
}
