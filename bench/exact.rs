//! Does exactly what the program `sketches` does in bounded memory. It keeps every distinct item.
//!
//!     exact top WHAT FILE    prints the ten most frequent items and their numbers; WHAT is `lines`, `words` or a field's number
//!     exact unseen FILE      prints each line that was not seen before
//!
//! It stands for a good exact counter: std's table with a fast hash, and an allocation for a new item only.
mod fold;

use fold::Fold;
use std::collections::{HashMap, HashSet};
use std::fs::File;
use std::hash::BuildHasherDefault;
use std::io::{self, BufRead, BufReader, BufWriter, Write};

type Counts = HashMap<Vec<u8>, u64, BuildHasherDefault<Fold>>;

/// Passes each line of the file, without its line feed, to `take`.
fn each_line(path: &str, mut take: impl FnMut(&[u8]) -> io::Result<()>) -> io::Result<()> {
    let mut input = BufReader::with_capacity(1 << 18, File::open(path)?);
    let mut line = Vec::new();
    while input.read_until(b'\n', &mut line)? != 0 {
        take(line.strip_suffix(b"\n").unwrap_or(&line))?;
        line.clear();
    }
    Ok(())
}

/// Returns the parts of a line between runs of spaces and tabs.
fn words(line: &[u8]) -> impl Iterator<Item = &[u8]> {
    line.split(|byte| matches!(byte, b' ' | b'\t')).filter(|word| !word.is_empty())
}

/// Adds 1 to an item's number.
fn count(counts: &mut Counts, item: &[u8]) {
    match counts.get_mut(item) {
        Some(number) => *number += 1,
        None => {
            counts.insert(item.to_vec(), 1);
        }
    }
}

fn top(what: &str, path: &str) -> io::Result<()> {
    let mut counts = Counts::default();
    each_line(path, |line| {
        match what {
            "lines" => count(&mut counts, line),
            "words" => words(line).for_each(|word| count(&mut counts, word)),
            field => {
                let place = field.parse::<usize>().expect("a field's number");
                if let Some(word) = words(line).nth(place - 1) {
                    count(&mut counts, word);
                }
            }
        }
        Ok(())
    })?;
    let mut rows: Vec<_> = counts.iter().collect();
    rows.sort_unstable_by(|a, b| b.1.cmp(a.1));
    let mut out = BufWriter::new(io::stdout().lock());
    for (item, number) in rows.iter().take(10) {
        write!(out, "{number} ")?;
        out.write_all(item)?;
        out.write_all(b"\n")?;
    }
    out.flush()
}

fn unseen(path: &str) -> io::Result<()> {
    let mut seen: HashSet<Vec<u8>, BuildHasherDefault<Fold>> = HashSet::default();
    let mut out = BufWriter::with_capacity(1 << 18, io::stdout().lock());
    each_line(path, |line| {
        if !seen.contains(line) {
            seen.insert(line.to_vec());
            out.write_all(line)?;
            out.write_all(b"\n")?;
        }
        Ok(())
    })?;
    out.flush()
}

fn main() -> io::Result<()> {
    let args: Vec<String> = std::env::args().skip(1).collect();
    match args.iter().map(String::as_str).collect::<Vec<_>>()[..] {
        ["top", what, path] => top(what, path),
        ["unseen", path] => unseen(path),
        _ => panic!("usage: exact top WHAT FILE | exact unseen FILE"),
    }
}
