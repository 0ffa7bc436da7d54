//! Sketches of frequent items under a secret key. Here the other side is the same library under the plain key.

use crate::rows::frequent::zipf;
use crate::timing::Table;

/// The maximum size of a sketch, and 1 if it has a secret key.
#[repr(C)]
struct Shape {
    max_map_size: usize,
    keyed: usize,
}

/// Times a row: `keyed_row!(table, name, turns, calls; rattle_loop; size, items, others)`.
macro_rules! keyed_row {
    ($table:expr, $name:expr, $turns:expr, $calls:expr; $here:ident; $size:expr, $items:expr, $others:expr) => {{
        unsafe extern "C" {
            fn $here(
                shape: *const std::ffi::c_void,
                items: *const std::ffi::c_void,
                items_len: usize,
                others: *const std::ffi::c_void,
                others_len: usize,
                turns: u64,
            ) -> u64;
        }
        let plain = |shape: &Shape, items: &[i64], others: &[i64], turns: u64| unsafe {
            let shape = Shape {
                max_map_size: shape.max_map_size,
                keyed: 0,
            };
            let (items_len, others_len) = (items.len(), others.len());
            let (items, others) = (items.as_ptr().cast(), others.as_ptr().cast());
            $here((&raw const shape).cast(), items, items_len, others, others_len, turns)
        };
        let shape = Shape {
            max_map_size: $size,
            keyed: 1,
        };
        $table.row($name, $turns, $calls, ($here, &plain), (&shape, &$items, &$others));
    }};
}

pub fn rows(t: &Table) {
    let len = 1 << 20;
    let zipf = zipf(len);
    let mixed = |n: usize| (n as u64).wrapping_mul(0x9E37_79B9_7F4A_7C15) as i64;
    let distinct: Vec<i64> = (0..len).map(mixed).collect();
    for size in [1024, 65536] {
        let full = size / 4 * 3;
        let mine = &distinct[..full];
        // the number of look-ups, in an order that no branch predictor learns
        let asked = 1 << 18;
        let chosen = |n: usize| (mixed(n) as u64 >> 33) as usize % full;
        let hits: Vec<i64> = (0..asked).map(|n| distinct[chosen(n)]).collect();
        let misses = &distinct[len - asked..];
        let numbers: Vec<i64> = (0..full as i64).collect();
        let hit_numbers: Vec<i64> = (0..asked).map(|n| chosen(n) as i64).collect();
        let name = |what: &str| format!("keyed, {what}, {size} slots");
        keyed_row!(t, &name("update, Zipf"), 1, len; rattle_keyed_update; size, zipf, []);
        keyed_row!(t, &name("update, distinct"), 1, len; rattle_keyed_update; size, distinct, []);
        keyed_row!(t, &name("estimate, hit"), 4, asked; rattle_keyed_estimate; size, mine, hits);
        keyed_row!(t, &name("estimate, miss"), 4, asked; rattle_keyed_estimate; size, mine, misses);
        keyed_row!(t, &name("update_all, Zipf"), 1, len; rattle_keyed_update_all; size, zipf, []);
        keyed_row!(t, &name("update_all, distinct"), 1, len; rattle_keyed_update_all; size, distinct, []);
        keyed_row!(t, &name("estimate_all, hit"), 4, asked; rattle_keyed_estimate_all; size, mine, hits);
        keyed_row!(t, &name("estimate_all, miss"), 4, asked; rattle_keyed_estimate_all; size, mine, misses);
        keyed_row!(t, &name("bounds_all, hit"), 4, asked; rattle_keyed_bounds_all; size, mine, hits);
        keyed_row!(t, &name("bounds_all, miss"), 4, asked; rattle_keyed_bounds_all; size, mine, misses);
        keyed_row!(t, &name("update_all of strings, Zipf"), 1, len; rattle_keyed_update_all_strs; size, zipf, []);
        keyed_row!(t, &name("estimate of strings, hit"), 4, asked; rattle_keyed_estimate_strs; size, numbers, hit_numbers);
    }
}
