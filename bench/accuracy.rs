//! Fills plain sketches of frequent items, which do as the published crate does, with the lines of a file: one sketch for each size.
//!
//!     accuracy FILE SIZE ..
//!
//! It prints a line for each size: the size, the error, and the image in hexadecimal digits, which has the total weight and all counters.
//! `accuracy.py` compiles and runs it.

mod plain;

use plain::frequent::Frequent;
use std::fmt::Write;

fn main() {
    let words: Vec<String> = std::env::args().skip(1).collect();
    let (path, sizes) = words.split_first().expect("accuracy FILE SIZE ..");
    let text = std::fs::read_to_string(path).expect("a file of UTF-8");
    for size in sizes {
        let mut sketch = Frequent::<String>::new(size.parse().expect("a size"));
        for item in text.lines() {
            sketch.update_with_count_ref(item, 1);
        }
        let mut line = format!("{size} {} ", sketch.error());
        for byte in sketch.serialize() {
            write!(line, "{byte:02x}").expect("a string takes all bytes");
        }
        println!("{line}");
    }
}
