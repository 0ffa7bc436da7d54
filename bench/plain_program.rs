//! Serves some of the program's lines as a Rust programmer would: lines that create a sketch, add to it and query it.

mod plain;

use plain::count_min::CountMin;
use plain::filter::Filter;
use plain::frequent::Frequent;
use std::collections::HashMap;
use std::io::{self, BufRead, BufReader, BufWriter, Write};
use std::process::ExitCode;

/// The number e is `E_NUMERATOR` / `E_DENOMINATOR`.
const E_NUMERATOR: u128 = 2_718_281_828_459_045_235;
const E_DENOMINATOR: u128 = 1_000_000_000_000_000_000;

enum Sketch {
    Frequent(Frequent<String>),
    Count(CountMin<u64>),
    Bloom(Filter),
}

/// Performs the command of a line. Returns false if the line is not a command.
fn serve(line: &str, sketches: &mut HashMap<String, Sketch>, out: &mut impl Write) -> io::Result<bool> {
    let mut words = line.split(' ').filter(|word| !word.is_empty());
    let Some(verb) = words.next() else {
        return Ok(true);
    };
    let Some(name) = words.next() else {
        return Ok(false);
    };
    let rest = [words.next(), words.next(), words.next(), words.next()];
    let made = match (verb, rest) {
        ("add", [Some(weight), Some(item), None, _]) => {
            let Ok(weight) = weight.parse::<u64>() else {
                return Ok(false);
            };
            let done = match sketches.get_mut(name) {
                None => "refused NoSuchName",
                Some(Sketch::Frequent(sketch)) if sketch.total().checked_add(weight).is_some() => {
                    sketch.update_with_count_ref(item, weight);
                    "ok"
                }
                Some(Sketch::Count(sketch)) if sketch.total().checked_add(weight).is_some() => {
                    sketch.update_with_weight(item, weight);
                    "ok"
                }
                Some(Sketch::Bloom(_)) => "refused WrongKind",
                Some(_) => "refused WeightOverflow",
            };
            writeln!(out, "{done}")?;
            return Ok(true);
        }
        ("insert", [Some(item), None, ..]) => {
            let done = match sketches.get_mut(name) {
                None => "refused NoSuchName",
                Some(Sketch::Bloom(filter)) => {
                    filter.insert(item);
                    "ok"
                }
                Some(_) => "refused WrongKind",
            };
            writeln!(out, "{done}")?;
            return Ok(true);
        }
        ("ask", [Some(item), None, ..]) => {
            match sketches.get(name) {
                None => writeln!(out, "refused NoSuchName")?,
                Some(Sketch::Frequent(sketch)) => {
                    let lower = sketch.lower_bound(item);
                    let upper = lower + sketch.error();
                    let estimate = if lower > 0 { upper } else { 0 };
                    writeln!(out, "estimate {estimate} lower {lower} upper {upper}")?;
                }
                Some(Sketch::Count(sketch)) => {
                    let estimate = sketch.estimate(item);
                    writeln!(
                        out,
                        "estimate {estimate} lower {estimate} upper {}",
                        upper(sketch, estimate)
                    )?;
                }
                Some(Sketch::Bloom(filter)) => {
                    let said = if filter.contains(item) { "yes" } else { "no" };
                    writeln!(out, "{said}")?;
                }
            }
            return Ok(true);
        }
        ("frequent", [Some(max), None, ..]) => match max.parse() {
            Ok(max) => Sketch::Frequent(Frequent::new(max)),
            Err(_) => return Ok(false),
        },
        ("countu", [Some(hashes), Some(buckets), Some(seed), None]) => {
            match (hashes.parse(), buckets.parse(), seed.parse()) {
                (Ok(hashes), Ok(buckets), Ok(seed)) => Sketch::Count(CountMin::new(hashes, buckets, seed)),
                _ => return Ok(false),
            }
        }
        ("bloom", [Some(bits), Some(hashes), Some(seed), None]) => match (bits.parse(), hashes.parse(), seed.parse()) {
            (Ok(bits), Ok(hashes), Ok(seed)) => Sketch::Bloom(Filter::with_size(bits, hashes, seed)),
            _ => return Ok(false),
        },
        _ => return Ok(false),
    };
    if sketches.contains_key(name) {
        writeln!(out, "refused NameTaken")?;
    } else {
        sketches.insert(name.to_string(), made);
        writeln!(out, "ok")?;
    }
    Ok(true)
}

/// Returns the estimate plus the total times e over the number of buckets.
fn upper(sketch: &CountMin<u64>, estimate: u64) -> u64 {
    let scale = E_DENOMINATOR * u128::from(sketch.num_buckets());
    let margin = u128::from(sketch.total()) * E_NUMERATOR / scale;
    u64::try_from(estimate as u128 + margin).unwrap_or(u64::MAX)
}

fn main() -> io::Result<ExitCode> {
    let mut input = BufReader::with_capacity(1 << 16, io::stdin().lock());
    let mut out = BufWriter::with_capacity(1 << 16, io::stdout().lock());
    let mut sketches = HashMap::new();
    let mut line = String::new();
    for number in 1u64.. {
        line.clear();
        if input.read_line(&mut line)? == 0 {
            break;
        }
        let said = line.strip_suffix('\n').unwrap_or(&line);
        let said = said.strip_suffix('\r').unwrap_or(said);
        if !serve(said, &mut sketches, &mut out)? {
            writeln!(out, "bad line {number}")?;
            out.flush()?;
            return Ok(ExitCode::from(1));
        }
    }
    out.flush()?;
    Ok(ExitCode::SUCCESS)
}
