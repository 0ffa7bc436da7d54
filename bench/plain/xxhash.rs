//! XXH64 as a Rust programmer would write it, each call inlined.

use super::murmur3::word;
use std::hash::Hasher;

const P1: u64 = 0x9E37_79B1_85EB_CA87;
const P2: u64 = 0xC2B2_AE3D_27D4_EB4F;
const P3: u64 = 0x1656_67B1_9E37_79F9;
const P4: u64 = 0x85EB_CA77_C2B2_AE63;
const P5: u64 = 0x27D4_EB2F_1656_67C5;

/// XXH64 as a Rust programmer would write it.
pub struct Xxh64 {
    seed: u64,
    lanes: [u64; 4],
    total: u64,
    buffer: [u8; 32],
    used: usize,
}

#[inline(always)]
fn round(acc: u64, lane: u64) -> u64 {
    acc.wrapping_add(lane.wrapping_mul(P2)).rotate_left(31).wrapping_mul(P1)
}

#[inline(always)]
fn merge(h: u64, acc: u64) -> u64 {
    (h ^ round(0, acc)).wrapping_mul(P1).wrapping_add(P4)
}

impl Xxh64 {
    #[inline(always)]
    pub fn with_seed(seed: u64) -> Self {
        Xxh64 {
            seed,
            lanes: [
                seed.wrapping_add(P1).wrapping_add(P2),
                seed.wrapping_add(P2),
                seed,
                seed.wrapping_sub(P1),
            ],
            total: 0,
            buffer: [0; 32],
            used: 0,
        }
    }

    #[inline(always)]
    fn stripe(&mut self, chunk: &[u8]) {
        for i in 0..4 {
            self.lanes[i] = round(self.lanes[i], word(&chunk[8 * i..]));
        }
    }
}

impl Hasher for Xxh64 {
    #[inline(always)]
    fn write(&mut self, mut bytes: &[u8]) {
        self.total = self.total.wrapping_add(bytes.len() as u64);
        if self.used > 0 {
            let room = 32 - self.used;
            if bytes.len() < room {
                self.buffer[self.used..self.used + bytes.len()].copy_from_slice(bytes);
                self.used += bytes.len();
                return;
            }
            let (front, rest) = bytes.split_at(room);
            self.buffer[self.used..].copy_from_slice(front);
            let buffer = self.buffer;
            self.stripe(&buffer);
            self.used = 0;
            bytes = rest;
        }
        let mut chunks = bytes.chunks_exact(32);
        for chunk in &mut chunks {
            self.stripe(chunk);
        }
        let rest = chunks.remainder();
        self.buffer[..rest.len()].copy_from_slice(rest);
        self.used = rest.len();
    }

    #[inline(always)]
    fn finish(&self) -> u64 {
        let mut h = if self.total >= 32 {
            let [a, b, c, d] = self.lanes;
            let h = a
                .rotate_left(1)
                .wrapping_add(b.rotate_left(7))
                .wrapping_add(c.rotate_left(12))
                .wrapping_add(d.rotate_left(18));
            merge(merge(merge(merge(h, a), b), c), d)
        } else {
            self.seed.wrapping_add(P5)
        };
        h = h.wrapping_add(self.total);
        let mut rest = &self.buffer[..self.used];
        while rest.len() >= 8 {
            h = (h ^ round(0, word(rest)))
                .rotate_left(27)
                .wrapping_mul(P1)
                .wrapping_add(P4);
            rest = &rest[8..];
        }
        if rest.len() >= 4 {
            let lane = u32::from_le_bytes(rest[..4].try_into().unwrap()) as u64;
            h = (h ^ lane.wrapping_mul(P1))
                .rotate_left(23)
                .wrapping_mul(P2)
                .wrapping_add(P3);
            rest = &rest[4..];
        }
        for byte in rest {
            h = (h ^ (*byte as u64).wrapping_mul(P5)).rotate_left(11).wrapping_mul(P1);
        }
        h = (h ^ (h >> 33)).wrapping_mul(P2);
        h = (h ^ (h >> 29)).wrapping_mul(P3);
        h ^ (h >> 32)
    }
}
