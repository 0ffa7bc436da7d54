//! The program and a plain one, with the same lines and the same replies. The time is that of a process, including its start
//! and its end.

use crate::timing::{Table, children_time, digest};
use std::fs::{self, File};
use std::io::{BufWriter, Write};
use std::process::Command;

/// The number of lines of a script.
const LINES: usize = 500_000;

const SCRIPT: &str = "out/script";
const REPLIES: &str = "out/replies";

/// The shapes of the sketches of a script.
struct Sizes {
    frequent: &'static str,
    count: &'static str,
    bloom: &'static str,
}

const LARGE: Sizes = Sizes {
    frequent: "1024",
    count: "4 1024 9001",
    bloom: "65536 7 9001",
};

const SMALL: Sizes = Sizes {
    frequent: "8",
    count: "4 64 9001",
    bloom: "1024 7 9001",
};

/// Writes lines that create `names` sketches of each kind and add to the first `used` of them. One line in ten is a query. The
/// kinds alternate.
fn write_script(names: u64, used: u64, kinds: &[u8], sizes: &Sizes) {
    let mut out = BufWriter::new(File::create(SCRIPT).unwrap());
    for name in 0..names {
        writeln!(out, "frequent f{name:03} {}", sizes.frequent).unwrap();
        writeln!(out, "countu c{name:03} {}", sizes.count).unwrap();
        writeln!(out, "bloom b{name:03} {}", sizes.bloom).unwrap();
    }
    let mut state: u64 = 0x9E37_79B9_7F4A_7C15;
    for i in 0..LINES as u64 - 3 * names {
        state ^= state << 13;
        state ^= state >> 7;
        state ^= state << 17;
        // small numbers are more frequent
        let item = (state >> 32) % (1 + (state & 0xFFFF));
        let name = i * 7919 % used;
        let weight = 1 + i % 5;
        let kind = |n: u64| char::from(kinds[n as usize % kinds.len()]);
        match (i % 10, kind(i % 10)) {
            (9, _) => writeln!(out, "ask {}{name:03} item-{item}", kind(i / 10)),
            (_, 'b') => writeln!(out, "insert b{name:03} item-{item}"),
            (_, kind) => writeln!(out, "add {kind}{name:03} {weight} item-{item}"),
        }
        .unwrap();
    }
    out.flush().unwrap();
}

/// Runs a program over the script. Returns its time and the digest of its replies.
fn run(program: &str) -> (f64, u64) {
    let start = children_time();
    let status = Command::new(program)
        .stdin(File::open(SCRIPT).unwrap())
        .stdout(File::create(REPLIES).unwrap())
        .status()
        .unwrap();
    assert!(status.success());
    (children_time() - start, digest(&fs::read(REPLIES).unwrap()))
}

pub fn rows(t: &Table) {
    let all = b"fcb";
    for (what, names, used, kinds, sizes) in [
        ("large, one name a kind", 1, 1, &all[..], LARGE),
        ("large, a thousand", 1000, 1000, all, LARGE),
        ("small, one name a kind", 1, 1, all, SMALL),
        ("small, a thousand, of which one is fed", 1000, 1, all, SMALL),
        ("small, a thousand", 1000, 1000, all, SMALL),
        ("large, frequent items alone", 1, 1, b"f", LARGE),
        ("large, Count-Min alone", 1, 1, b"c", LARGE),
        ("large, filters alone", 1, 1, b"b", LARGE),
    ] {
        let name = format!("program, a line, {what}");
        if !t.has(&name) {
            continue;
        }
        write_script(names, used, kinds, &sizes);
        let side = |program: &'static str| move |turns| if turns == 0 { (0.0, 0) } else { run(program) };
        t.timed_row(
            &name,
            1,
            LINES,
            &side("out/crates/datasketches_cli/out/datasketches_cli"),
            &side("out/plain_program"),
        );
    }
}
