//! Stand-in for the crate `rustc-hash` 2.1: its published hash for whole numbers.

use std::collections::HashMap;
use std::hash::{BuildHasherDefault, Hasher};

pub type FxHashMap<K, V> = HashMap<K, V, BuildHasherDefault<FxHasher>>;

/// One word: each number is added, then the word is multiplied.
#[derive(Clone, Copy, Default)]
pub struct FxHasher {
    hash: u64,
}

const MULTIPLIER: u64 = 0xf135_7aea_2e62_a9c5;

impl FxHasher {
    #[inline]
    fn add_to_hash(&mut self, number: u64) {
        self.hash = self.hash.wrapping_add(number).wrapping_mul(MULTIPLIER);
    }
}

// The other writers of the trait end in one of these. Byte strings are no part
// of any key here.
impl Hasher for FxHasher {
    #[inline]
    fn write(&mut self, _bytes: &[u8]) {
        unreachable!("every key here is made of whole numbers")
    }
    #[inline]
    fn write_u8(&mut self, i: u8) {
        self.add_to_hash(u64::from(i));
    }
    #[inline]
    fn write_u16(&mut self, i: u16) {
        self.add_to_hash(u64::from(i));
    }
    #[inline]
    fn write_u32(&mut self, i: u32) {
        self.add_to_hash(u64::from(i));
    }
    #[inline]
    fn write_u64(&mut self, i: u64) {
        self.add_to_hash(i);
    }
    #[inline]
    fn write_usize(&mut self, i: usize) {
        self.add_to_hash(i as u64);
    }
    #[inline]
    fn finish(&self) -> u64 {
        self.hash.rotate_left(26)
    }
}

#[cfg(test)]
mod tests {
    use super::FxHasher;
    use std::hash::{Hash, Hasher};

    fn hash(value: impl Hash) -> u64 {
        let mut hasher = FxHasher::default();
        value.hash(&mut hasher);
        hasher.finish()
    }

    /// The multiplier times the number, turned left by 26: computed apart from this code.
    #[test]
    fn known_figures() {
        assert_eq!(hash(0_u32), 0);
        assert_eq!(hash(1_u32), 12157901119326311915);
        assert_eq!(hash(100_u32), 16751747135202103309);
        assert_eq!(hash(1_isize), 12157901119326311915);
    }
}
