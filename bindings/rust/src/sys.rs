//! The declarations of `datasketches.h`, name for name. That header describes each call, and the rules that
//! callers keep.
#![allow(non_camel_case_types)]

mod constants;
pub use constants::*;

use core::ffi::c_void;
use std::os::raw::c_char;

#[repr(C)]
pub struct ds_sketch {
    pub sketch: *mut c_void,
}

#[derive(Clone, Copy)]
#[repr(C)]
pub struct ds_string {
    pub bytes: *const u8,
    pub length: usize,
}

#[derive(Clone, Copy)]
#[repr(C)]
pub struct ds_key {
    pub k0: u64,
    pub k1: u64,
}

#[derive(Clone, Copy)]
#[repr(C)]
pub struct ds_fields {
    pub format: i32,
    pub delimiter: u8,
    pub item: u32,
    pub weight: u32,
}

#[derive(Clone, Copy, Default)]
#[repr(C)]
pub struct ds_fields_read {
    pub num_records: usize,
    pub num_items: usize,
    pub offset: usize,
}

#[repr(C)]
pub struct ds_image_options {
    pub max_bytes: usize,
    pub seed: u64,
    pub key: *const ds_key,
}

#[derive(Clone, Copy)]
#[repr(C)]
pub struct ds_item {
    pub kind: i32,
    pub number: u64,
    pub bytes: *const u8,
    pub length: usize,
}

#[derive(Clone, Copy)]
#[repr(C)]
pub struct ds_items {
    pub kind: i32,
    pub u64s: *const u64,
    pub num_u64s: usize,
    pub i64s: *const i64,
    pub num_i64s: usize,
    pub bytes: *const u8,
    pub num_bytes: usize,
    pub offsets: *const u64,
    pub num_offsets: usize,
    pub offsets32: *const u32,
    pub num_offsets32: usize,
    pub strings: *const ds_string,
    pub num_strings: usize,
    pub fed: *const ds_string,
    pub num_fed: usize,
    pub validity: *const u8,
    pub num_validity: usize,
    pub first_bit: usize,
}

pub type ds_item_bounds = crate::frequencies::ItemBounds;

extern "C" {
    pub fn ds_version() -> *const c_char;
    pub fn ds_result_name(result: i32) -> *const c_char;
    pub fn ds_result_message(result: i32) -> *const c_char;

    pub fn ds_free(handle: *mut ds_sketch);
    pub fn ds_clone(handle: *mut ds_sketch, other: *mut ds_sketch) -> i32;
    pub fn ds_reset(handle: *mut ds_sketch) -> i32;
    pub fn ds_join(handle: *mut ds_sketch, other: *mut ds_sketch, join: i32) -> i32;
    pub fn ds_merge_all(handle: *mut ds_sketch, others: *mut ds_sketch, count: usize) -> i32;
    pub fn ds_equal(handle: *mut ds_sketch, other: *mut ds_sketch) -> i32;
    pub fn ds_memory_bytes(handle: *mut ds_sketch, bytes: *mut usize) -> i32;
    pub fn ds_number(handle: *mut ds_sketch, which: i32, value: *mut u64) -> i32;
    pub fn ds_serialized_bytes(handle: *mut ds_sketch, bytes: *mut usize) -> i32;
    pub fn ds_serialize(handle: *mut ds_sketch, out: *mut u8, capacity: usize, written: *mut usize) -> i32;
    pub fn ds_deserialize_prefix(
        handle: *mut ds_sketch,
        kind: i32,
        image: *const u8,
        length: usize,
        options: *const ds_image_options,
        used: *mut usize,
    ) -> i32;
    pub fn ds_freeze(handle: *mut ds_sketch) -> i32;
    pub fn ds_share(handle: *mut ds_sketch, shared: *mut ds_sketch) -> i32;
    pub fn ds_thaw(handle: *mut ds_sketch) -> i32;
    pub fn ds_num_items(items: *const ds_items, count: *mut usize) -> i32;

    pub fn ds_bloom_new(handle: *mut ds_sketch, num_bits: u64, num_hashes: u16, seed: u64) -> i32;
    pub fn ds_bloom_insert(handle: *mut ds_sketch, item: *const ds_item) -> i32;
    pub fn ds_bloom_insert_all(handle: *mut ds_sketch, items: *const ds_items) -> i32;
    pub fn ds_bloom_contains(handle: *mut ds_sketch, item: *const ds_item) -> i32;
    pub fn ds_bloom_contains_all(
        handle: *mut ds_sketch,
        items: *const ds_items,
        results: *mut bool,
        num_results: usize,
    ) -> i32;
    pub fn ds_bloom_contains_and_insert(handle: *mut ds_sketch, item: *const ds_item) -> i32;
    pub fn ds_bloom_contains_and_insert_all(
        handle: *mut ds_sketch,
        items: *const ds_items,
        results: *mut bool,
        num_results: usize,
    ) -> i32;
    pub fn ds_bloom_image_contains(image: *const u8, length: usize, item: *const ds_item) -> i32;
    pub fn ds_bloom_image_contains_all(
        image: *const u8,
        length: usize,
        items: *const ds_items,
        results: *mut bool,
        num_results: usize,
    ) -> i32;

    pub fn ds_update(handle: *mut ds_sketch, item: *const ds_item, weight: u64) -> i32;
    pub fn ds_update_all(handle: *mut ds_sketch, items: *const ds_items) -> i32;
    pub fn ds_update_all_weighted(
        handle: *mut ds_sketch,
        items: *const ds_items,
        weights: *const u64,
        num_weights: usize,
    ) -> i32;

    pub fn ds_update_fields(
        handle: *mut ds_sketch,
        bytes: *const u8,
        length: usize,
        fields: *const ds_fields,
        read: *mut ds_fields_read,
    ) -> i32;

    pub fn ds_count_min_new(
        handle: *mut ds_sketch,
        kind: i32,
        num_hashes: u8,
        num_buckets: u32,
        seed: u64,
    ) -> i32;
    pub fn ds_count_min_u64_estimate(handle: *mut ds_sketch, item: *const ds_item, estimate: *mut u64)
        -> i32;
    pub fn ds_count_min_u64_estimate_all(
        handle: *mut ds_sketch,
        items: *const ds_items,
        estimates: *mut u64,
        num_estimates: usize,
    ) -> i32;
    pub fn ds_count_min_u64_upper_bound(handle: *mut ds_sketch, item: *const ds_item, bound: *mut u64)
        -> i32;
    pub fn ds_count_min_u64_halve(handle: *mut ds_sketch) -> i32;
    pub fn ds_count_min_u64_decay(handle: *mut ds_sketch, numerator: u64, denominator: u64) -> i32;
    pub fn ds_count_min_u64_image_estimate(
        image: *const u8,
        length: usize,
        seed: u64,
        item: *const ds_item,
        estimate: *mut u64,
    ) -> i32;
    pub fn ds_count_min_i64_update(handle: *mut ds_sketch, item: *const ds_item, weight: i64) -> i32;
    pub fn ds_count_min_i64_update_all_weighted(
        handle: *mut ds_sketch,
        items: *const ds_items,
        weights: *const i64,
        num_weights: usize,
    ) -> i32;
    pub fn ds_count_min_i64_estimate(handle: *mut ds_sketch, item: *const ds_item, estimate: *mut i64)
        -> i32;
    pub fn ds_count_min_i64_estimate_all(
        handle: *mut ds_sketch,
        items: *const ds_items,
        estimates: *mut i64,
        num_estimates: usize,
    ) -> i32;
    pub fn ds_count_min_i64_upper_bound(handle: *mut ds_sketch, item: *const ds_item, bound: *mut i64)
        -> i32;
    pub fn ds_count_min_i64_image_estimate(
        image: *const u8,
        length: usize,
        seed: u64,
        item: *const ds_item,
        estimate: *mut i64,
    ) -> i32;

    pub fn ds_frequent_items_new(
        handle: *mut ds_sketch,
        kind: i32,
        max_map_size: usize,
        sample_size: usize,
        key: *const ds_key,
    ) -> i32;
    pub fn ds_frequent_items_bounds(
        handle: *mut ds_sketch,
        item: *const ds_item,
        bounds: *mut ds_item_bounds,
    ) -> i32;
    pub fn ds_frequent_items_bounds_all(
        handle: *mut ds_sketch,
        items: *const ds_items,
        bounds: *mut ds_item_bounds,
        num_bounds: usize,
    ) -> i32;
    pub fn ds_frequent_items_set_sample_size(handle: *mut ds_sketch, sample_size: usize) -> i32;
    pub fn ds_frequent_items_u64_rows(
        handle: *mut ds_sketch,
        no_false_negatives: bool,
        threshold: u64,
        limit: usize,
        items: *mut u64,
        num_items: usize,
        bounds: *mut ds_item_bounds,
        num_bounds: usize,
        count: *mut usize,
    ) -> i32;
    pub fn ds_frequent_items_i64_rows(
        handle: *mut ds_sketch,
        no_false_negatives: bool,
        threshold: u64,
        limit: usize,
        items: *mut i64,
        num_items: usize,
        bounds: *mut ds_item_bounds,
        num_bounds: usize,
        count: *mut usize,
    ) -> i32;
    pub fn ds_frequent_items_string_rows(
        handle: *mut ds_sketch,
        no_false_negatives: bool,
        threshold: u64,
        limit: usize,
        bytes: *mut u8,
        room_for_bytes: usize,
        offsets: *mut u64,
        num_offsets: usize,
        bounds: *mut ds_item_bounds,
        num_bounds: usize,
        count: *mut usize,
        num_bytes: *mut usize,
    ) -> i32;

    pub fn ds_finished(chunk: i32, bytes: *const u8, length: usize, delimiter: u8) -> usize;
    pub fn ds_valid_utf8(text: *const u8, length: usize) -> usize;
    pub fn ds_keyed_hash(bytes: *const u8, length: usize, k0: u64, k1: u64) -> u64;

    pub fn ds_suggest(size: i32, first: u64, second: u64, found: *mut u64) -> i32;
}
