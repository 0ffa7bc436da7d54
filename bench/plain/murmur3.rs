//! MurmurHash3 x64 128 as a Rust programmer would write it, each call inlined.

use std::hash::Hasher;

const C1: u64 = 0x87C3_7B91_1142_53D5;
const C2: u64 = 0x4CF5_AD43_2745_937F;

/// The hasher.
pub struct Murmur3 {
    h1: u64,
    h2: u64,
    total: u64,
    buffer: [u8; 16],
    used: usize,
}

/// Eight bytes, the lowest first.
#[inline(always)]
pub fn word(bytes: &[u8]) -> u64 {
    u64::from_le_bytes(bytes[..8].try_into().unwrap())
}

#[inline(always)]
fn mix_k1(k: u64) -> u64 {
    k.wrapping_mul(C1).rotate_left(31).wrapping_mul(C2)
}

#[inline(always)]
fn mix_k2(k: u64) -> u64 {
    k.wrapping_mul(C2).rotate_left(33).wrapping_mul(C1)
}

#[inline(always)]
fn fmix64(mut k: u64) -> u64 {
    k ^= k >> 33;
    k = k.wrapping_mul(0xFF51_AFD7_ED55_8CCD);
    k ^= k >> 33;
    k = k.wrapping_mul(0xC4CE_B9FE_1A85_EC53);
    k ^ (k >> 33)
}

impl Murmur3 {
    #[inline(always)]
    pub fn with_seed(seed: u64) -> Self {
        Murmur3 {
            h1: seed,
            h2: seed,
            total: 0,
            buffer: [0; 16],
            used: 0,
        }
    }

    #[inline(always)]
    fn block(&mut self, k1: u64, k2: u64) {
        self.h1 ^= mix_k1(k1);
        self.h1 = self
            .h1
            .rotate_left(27)
            .wrapping_add(self.h2)
            .wrapping_mul(5)
            .wrapping_add(0x52DC_E729);
        self.h2 ^= mix_k2(k2);
        self.h2 = self
            .h2
            .rotate_left(31)
            .wrapping_add(self.h1)
            .wrapping_mul(5)
            .wrapping_add(0x3849_5AB5);
    }
}

impl Hasher for Murmur3 {
    #[inline(always)]
    fn write(&mut self, mut bytes: &[u8]) {
        self.total = self.total.wrapping_add(bytes.len() as u64);
        if self.used > 0 {
            let room = 16 - self.used;
            if bytes.len() < room {
                self.buffer[self.used..self.used + bytes.len()].copy_from_slice(bytes);
                self.used += bytes.len();
                return;
            }
            let (front, rest) = bytes.split_at(room);
            self.buffer[self.used..].copy_from_slice(front);
            let buffer = self.buffer;
            self.block(word(&buffer), word(&buffer[8..]));
            self.used = 0;
            bytes = rest;
        }
        let mut chunks = bytes.chunks_exact(16);
        for chunk in &mut chunks {
            self.block(word(chunk), word(&chunk[8..]));
        }
        let rest = chunks.remainder();
        self.buffer[..rest.len()].copy_from_slice(rest);
        self.used = rest.len();
    }

    /// The first half.
    #[inline(always)]
    fn finish(&self) -> u64 {
        let mut tail = [0u8; 16];
        tail[..self.used].copy_from_slice(&self.buffer[..self.used]);
        let mut h1 = self.h1 ^ mix_k1(word(&tail));
        let mut h2 = self.h2 ^ mix_k2(word(&tail[8..]));
        h1 ^= self.total;
        h2 ^= self.total;
        h1 = h1.wrapping_add(h2);
        h2 = h2.wrapping_add(h1);
        h1 = fmix64(h1);
        h2 = fmix64(h2);
        h1.wrapping_add(h2)
    }
}
