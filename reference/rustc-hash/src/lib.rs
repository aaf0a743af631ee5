//! A stand-in for rustc-hash: its add-and-multiply hasher, with a multiplier that can be set.
//!
//! The multiplier changes the order in which a map is walked and nothing else, so running a body under several of them
//! shows whether an answer hangs on map order. Order 0 is the hasher that rustc-hash 2 has.

use std::collections::{HashMap, HashSet};
use std::hash::{BuildHasherDefault, Hasher};
use std::sync::atomic::{AtomicU64, Ordering};

const MULTIPLIER: u64 = 0xf135_7aea_2e62_a9c5;

static CHOSEN: AtomicU64 = AtomicU64::new(MULTIPLIER);

/// Choose another map order for every map made from now on: another odd multiplier for each number.
pub fn set_map_order(order: u64) {
    let mixed = (order ^ (order >> 31)).wrapping_mul(0x9e37_79b9_7f4a_7c15);
    CHOSEN.store(MULTIPLIER ^ (mixed << 1), Ordering::Relaxed);
}

#[derive(Clone)]
pub struct FxHasher {
    hash: u64,
    multiplier: u64,
}

impl Default for FxHasher {
    fn default() -> FxHasher {
        FxHasher { hash: 0, multiplier: CHOSEN.load(Ordering::Relaxed) }
    }
}

impl FxHasher {
    fn add(&mut self, word: u64) {
        self.hash = self.hash.wrapping_add(word).wrapping_mul(self.multiplier);
    }
}

impl Hasher for FxHasher {
    fn write(&mut self, bytes: &[u8]) {
        for chunk in bytes.chunks(8) {
            let mut word = [0u8; 8];
            word[..chunk.len()].copy_from_slice(chunk);
            self.add(u64::from_le_bytes(word));
        }
    }
    fn write_u8(&mut self, n: u8) {
        self.add(n as u64);
    }
    fn write_u16(&mut self, n: u16) {
        self.add(n as u64);
    }
    fn write_u32(&mut self, n: u32) {
        self.add(n as u64);
    }
    fn write_u64(&mut self, n: u64) {
        self.add(n);
    }
    fn write_usize(&mut self, n: usize) {
        self.add(n as u64);
    }
    fn finish(&self) -> u64 {
        self.hash.rotate_left(26)
    }
}

pub type FxBuildHasher = BuildHasherDefault<FxHasher>;
pub type FxHashMap<K, V> = HashMap<K, V, FxBuildHasher>;
pub type FxHashSet<T> = HashSet<T, FxBuildHasher>;
