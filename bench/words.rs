//! Counts the words of a file exactly, and prints their number and the five heaviest: `words FILE`.
//!
//! It stands for a good exact counter: words are slices of the file's bytes, hashed eight bytes at a time.
mod fold;

use fold::Fold;
use std::collections::HashMap;
use std::hash::BuildHasherDefault;

fn main() {
    let path = std::env::args().nth(1).expect("a file");
    let data = std::fs::read(path).expect("to read the file");
    let mut counts: HashMap<&[u8], u64, BuildHasherDefault<Fold>> = HashMap::default();
    for word in data.split(|byte| matches!(byte, b' ' | b'\t' | b'\n' | b'\x0c' | b'\r')) {
        if !word.is_empty() {
            *counts.entry(word).or_insert(0) += 1;
        }
    }
    let mut rows: Vec<_> = counts.iter().collect();
    rows.sort_by(|a, b| b.1.cmp(a.1).then(a.0.cmp(b.0)));
    println!("{} words, {} distinct", counts.values().sum::<u64>(), rows.len());
    for (word, count) in rows.iter().take(5) {
        println!("{} {count}", String::from_utf8_lossy(word));
    }
}
