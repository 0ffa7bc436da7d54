//! The timing and printing of rows.

use std::ffi::c_void;
use std::hint::black_box;

/// The number of rounds, of which the minimum time of each side counts.
const ROUNDS: u32 = 25;

/// The C library's limits: how much free memory it keeps, and the size from which on it allocates each block from the
/// system.
const KEPT_MEMORY: i32 = -1;
const SEPARATE_BLOCKS: i32 = -3;

/// Linux's clock of a thread's processor time.
const THREAD_CLOCK: i32 = 3;

#[repr(C)]
struct Time {
    seconds: i64,
    nanoseconds: i64,
}

#[repr(C)]
#[derive(Default)]
struct Usage {
    times: [i64; 4],
    rest: [i64; 14],
}

unsafe extern "C" {
    fn clock_gettime(clock: i32, time: &mut Time) -> i32;
    fn getrusage(who: i32, usage: &mut Usage) -> i32;
    fn mallopt(limit: i32, value: i32) -> i32;
}

/// Makes the C library keep the memory that it once allocated. Otherwise the number of pages that the system provides and clears
/// depends on the addresses of blocks.
pub fn keep_memory() {
    assert_eq!(unsafe { mallopt(SEPARATE_BLOCKS, 32 << 20) }, 1);
    assert_eq!(unsafe { mallopt(KEPT_MEMORY, i32::MAX) }, 1);
}

/// Returns the processor time of this thread, in seconds.
pub fn thread_time() -> f64 {
    let mut time = Time {
        seconds: 0,
        nanoseconds: 0,
    };
    assert_eq!(unsafe { clock_gettime(THREAD_CLOCK, &mut time) }, 0);
    time.seconds as f64 + time.nanoseconds as f64 / 1e9
}

/// Returns the processor time of ended child processes, in seconds.
pub fn children_time() -> f64 {
    let mut usage = Usage::default();
    assert_eq!(unsafe { getrusage(-1, &mut usage) }, 0);
    let [user, user_micros, system, system_micros] = usage.times;
    (user + system) as f64 + (user_micros + system_micros) as f64 / 1e6
}

/// A loop over the proved crates: a shape, items, others, and a number of turns.
pub type Loop = unsafe extern "C" fn(*const c_void, *const c_void, usize, *const c_void, usize, u64) -> u64;

/// A loop in plain Rust, with the same arguments.
pub type PlainLoop<Shape, Item> = dyn Fn(&Shape, &[Item], &[Item], u64) -> u64;

/// The action on the chosen rows.
#[derive(Clone, Copy, PartialEq)]
pub enum Task {
    /// Time them.
    Time,
    /// Print only their names.
    Name,
    /// Run the row of exactly that name once, for a tool that counts instructions.
    RunOnce,
}

/// The chosen rows: those whose names contain each of the words.
pub struct Table {
    words: Vec<String>,
    task: Task,
}

impl Table {
    /// Creates the table, and prints its head if rows are timed.
    pub fn new(words: Vec<String>, task: Task) -> Self {
        if task == Task::Time {
            println!("| operation | here | plain | ratio |\n|---|---|---|---|");
        }
        Table { words, task }
    }

    /// Returns whether a row is to be run.
    pub fn has(&self, name: &str) -> bool {
        let chosen = match self.task {
            Task::RunOnce => self.words == [name],
            _ => self.words.iter().all(|word| name.contains(word)),
        };
        if chosen && self.task == Task::Name {
            println!("{name}");
        }
        chosen && self.task != Task::Name
    }

    /// Times a row of `calls` calls a turn, here and in plain Rust, if it is chosen. Both sides return a digest of their turns'
    /// results, which must be equal. The time is the difference between several turns and none.
    pub fn row<Shape, Item>(
        &self,
        name: &str,
        turns: u64,
        calls: usize,
        (here, plain): (Loop, &PlainLoop<Shape, Item>),
        (shape, items, others): (&Shape, &[Item], &[Item]),
    ) {
        if !self.has(name) {
            return;
        }
        let timed = |side: &dyn Fn() -> u64| {
            let start = thread_time();
            let answer = black_box(side());
            (thread_time() - start, answer)
        };
        let place = |items: &[Item]| items.as_ptr().cast();
        let here = |turns| unsafe {
            let shape = std::ptr::from_ref(shape).cast();
            here(shape, place(items), items.len(), place(others), others.len(), turns)
        };
        self.timed_row(
            name,
            turns,
            calls,
            &|turns| timed(&|| here(black_box(turns))),
            &|turns| timed(&|| plain(shape, items, others, black_box(turns))),
        );
    }

    /// Does the same for sides that take their own times, in seconds. The caller has checked that the row is to be run.
    pub fn timed_row(
        &self,
        name: &str,
        turns: u64,
        calls: usize,
        here: &dyn Fn(u64) -> (f64, u64),
        plain: &dyn Fn(u64) -> (f64, u64),
    ) {
        if self.task == Task::RunOnce {
            assert_eq!(here(turns).1, plain(turns).1, "{name}");
            return;
        }
        // each side's minimum times with no turn and with all turns
        let mut least = [[f64::MAX; 2]; 2];
        for round in 0..ROUNDS {
            for (times, turns) in [0, turns].into_iter().enumerate() {
                // either side comes first in every other round
                let before = (round % 2 == 1).then(|| plain(turns));
                let here = here(turns);
                let plain = before.unwrap_or_else(|| plain(turns));
                assert_eq!(here.1, plain.1, "{name}");
                assert!(turns == 0 || here.1 != 0, "{name}");
                least[0][times] = least[0][times].min(here.0);
                least[1][times] = least[1][times].min(plain.0);
            }
        }
        let [here, plain] = least.map(|[none, all]| (all - none) * 1e9 / (turns as f64 * calls as f64));
        println!(
            "| {name} | {} | {} | {:.2} |",
            duration(here),
            duration(plain),
            here / plain
        );
    }
}

/// Returns nanoseconds as a string with three digits.
fn duration(nanoseconds: f64) -> String {
    match nanoseconds {
        n if n < 0.995 => format!("{n:.3} ns"),
        n if n < 9.95 => format!("{n:.2} ns"),
        n if n < 99.5 => format!("{n:.1} ns"),
        n if n < 9_995.0 => format!("{n:.0} ns"),
        n => format!("{:.0} us", n / 1000.0),
    }
}

/// Returns `count` different numbers, from a place on.
pub fn numbers(from: u64, count: usize) -> Vec<u64> {
    (from..from + count as u64)
        .map(|n| n.wrapping_mul(0x9E37_79B9_7F4A_7C15))
        .collect()
}

/// Returns a digest of bytes.
pub fn digest(bytes: &[u8]) -> u64 {
    bytes
        .iter()
        .fold(0, |all: u64, byte| all.wrapping_mul(31).wrapping_add(u64::from(*byte)))
}

/// Times a row: `row!(table, name, turns, calls; rattle_loop, plain_loop; shape, items, others)`. Both loops get the arguments
/// after the second semicolon, and the number of turns.
#[macro_export]
macro_rules! row {
    ($table:expr, $name:expr, $turns:expr, $calls:expr; $here:ident, $plain:expr;
     $shape:expr, $items:expr, $others:expr) => {{
        unsafe extern "C" {
            fn $here(
                shape: *const std::ffi::c_void,
                items: *const std::ffi::c_void,
                items_len: usize,
                others: *const std::ffi::c_void,
                others_len: usize,
                turns: u64,
            ) -> u64;
        }
        $table.row($name, $turns, $calls, ($here, &$plain), (&$shape, &$items, &$others));
    }};
}
