//! Images from and to the program `datasketches_cli`, whose path is in `DATASKETCHES_CLI`. Without it, these tests fail.

use datasketches_rattle::bloom::{BloomFilter, BloomFilterBuilder};
use datasketches_rattle::countmin::CountMinSketch;
use datasketches_rattle::frequencies::FrequentItemsSketch;
use datasketches_rattle::{ImageOptions, Key};
use std::io::Write;
use std::process::{Command, Stdio};

/// Returns the replies of the program to lines, under the key of the bytes 0 to 15.
fn replies(lines: &[String]) -> Vec<String> {
    let program = std::env::var_os("DATASKETCHES_CLI").expect("DATASKETCHES_CLI is the path of the program");
    let mut child = Command::new(program)
        .env("DATASKETCHES_TABLE_KEY", "000102030405060708090a0b0c0d0e0f")
        .stdin(Stdio::piped())
        .stdout(Stdio::piped())
        .spawn()
        .unwrap();
    let text = lines.join("\n");
    let mut input = child.stdin.take().unwrap();
    let writer = std::thread::spawn(move || input.write_all(text.as_bytes()).unwrap());
    let output = child.wait_with_output().unwrap();
    writer.join().unwrap();
    assert!(output.status.success());
    String::from_utf8(output.stdout).unwrap().lines().map(str::to_owned).collect()
}

fn key() -> Key {
    Key::from_bytes([0, 1, 2, 3, 4, 5, 6, 7, 8, 9, 10, 11, 12, 13, 14, 15])
}

fn hex(bytes: &[u8]) -> String {
    bytes.iter().map(|byte| format!("{:02x}", byte)).collect()
}

/// Returns words, some of them often.
fn items() -> Vec<String> {
    (0..200u64).map(|number| format!("wört{}", number * number % 61)).collect()
}

/// Sends a sketch's image to the program, asks it for items, and compares its image of a sketch of its own.
fn compare(new: &str, add: &str, load: &str, image: &[u8], asked: &[(String, String)]) {
    let mut lines = vec![new.to_string()];
    lines.extend(items().iter().map(|item| format!("{} {}", add, item)));
    lines.extend(["save s i", "image i"].map(str::to_owned));
    lines.push(format!("load t {} {}", load, hex(image)));
    lines.extend(asked.iter().map(|(item, _)| format!("ask t {}", item)));
    let replies = replies(&lines);
    let made = 1 + items().len() + 1;
    assert!(replies[..made].iter().all(|reply| reply == "ok"));
    assert_eq!(replies[made], format!("image {}", hex(image)));
    assert_eq!(replies[made + 1], "ok");
    let expected: Vec<&String> = asked.iter().map(|(_, reply)| reply).collect();
    assert_eq!(replies[made + 2..].iter().collect::<Vec<_>>(), expected);
}

fn asked(reply: impl Fn(&str) -> String) -> Vec<(String, String)> {
    (0..70).map(|number| format!("wört{}", number)).map(|item| (item.clone(), reply(&item))).collect()
}

#[test]
fn filters_cross() {
    let mut filter = BloomFilterBuilder::with_size(512, 3).seed(7).build().unwrap();
    filter.insert_all(&items()).unwrap();
    let image = filter.serialize();
    let reply = |item: &str| if filter.contains(item) { "yes" } else { "no" }.to_string();
    compare("bloom s 512 3 7", "insert s", "bloom 1000", &image, &asked(reply));
    assert_eq!(BloomFilter::deserialize(&image).unwrap(), filter);
}

#[test]
fn counts_cross() {
    let mut counts = CountMinSketch::<u64>::with_seed(3, 64, 7).unwrap();
    counts.update_all_with_weights(&items(), &[5; 200]).unwrap();
    let reply = |item: &str| {
        let (estimate, upper) = (counts.estimate(item), counts.upper_bound(item));
        format!("estimate {} lower {} upper {}", estimate, estimate, upper)
    };
    compare("countu s 3 64 7", "add s 5", "countu 10000 7", &counts.serialize(), &asked(reply));
    let mut signed = CountMinSketch::<i64>::with_seed(3, 64, 7).unwrap();
    signed.update_all_with_weights(&items(), &[-5; 200]).unwrap();
    let reply = |item: &str| {
        let (estimate, upper) = (signed.estimate(item), signed.upper_bound(item));
        format!("estimate {} lower {} upper {}", estimate, estimate, upper)
    };
    compare("counti s 3 64 7", "adds s -5", "counti 10000 7", &signed.serialize(), &asked(reply));
}

#[test]
fn frequent_items_cross() {
    let mut sketch = FrequentItemsSketch::<String>::with_key(32, key()).unwrap();
    sketch.update_all_with_counts(&items(), &[5; 200]).unwrap();
    let image = sketch.serialize();
    let options = ImageOptions::default().key(key());
    let sketch = FrequentItemsSketch::<String>::deserialize_with_options(&image, &options).unwrap();
    let reply = |item: &str| {
        let (estimate, lower) = (sketch.estimate(item), sketch.lower_bound(item));
        format!("estimate {} lower {} upper {}", estimate, lower, sketch.upper_bound(item))
    };
    compare("frequent s 32", "add s 5", "frequent 100000", &image, &asked(reply));
}
