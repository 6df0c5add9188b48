// GLUE of the oracle, and no part of the original: it stands in for the crate `rustc_hash` of a
// registry. The original never runs through a map or a set of these, it only looks in them, so the
// hash has no bearing on an answer. Like that crate's it has no seed and costs a multiplication for
// each word, so that the original's times are not those of a slower hash.

use std::collections::{HashMap, HashSet};
use std::hash::{BuildHasherDefault, Hasher};

pub type FxHashMap<K, V> = HashMap<K, V, BuildHasherDefault<FxHasher>>;
pub type FxHashSet<K> = HashSet<K, BuildHasherDefault<FxHasher>>;

#[derive(Clone, Copy, Default)]
pub struct FxHasher(u64);

impl Hasher for FxHasher {
    #[inline]
    fn write(&mut self, bytes: &[u8]) {
        for byte in bytes {
            self.write_u64((*byte).into());
        }
    }

    #[inline]
    fn write_u64(&mut self, word: u64) {
        self.0 = (self.0.rotate_left(5) ^ word).wrapping_mul(0x517c_c1b7_2722_0a95);
    }

    #[inline]
    fn write_usize(&mut self, word: usize) {
        self.write_u64(word as u64);
    }

    /// The product's high bits are the well mixed ones, and the map looks at the low ones too.
    #[inline]
    fn finish(&self) -> u64 {
        self.0.rotate_left(26)
    }
}
