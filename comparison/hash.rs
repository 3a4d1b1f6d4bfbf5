//! Hash tables with a quick hash, as our programs have it: it withstands no keys that are chosen to collide.
#![allow(dead_code)] // not every program has sets
use std::hash::{BuildHasherDefault, Hasher};

pub type HashMap<K, V> = std::collections::HashMap<K, V, BuildHasherDefault<Quick>>;
pub type HashSet<K> = std::collections::HashSet<K, BuildHasherDefault<Quick>>;

const MULTIPLIER: u128 = 0x9e37_79b9_7f4a_7c15;

/// Multiplies eight bytes at a time to 128 bits, and joins the halves.
pub struct Quick(u64);

impl Default for Quick {
    fn default() -> Quick {
        Quick(0x243f_6a88_85a3_08d3)
    }
}

impl Hasher for Quick {
    fn finish(&self) -> u64 {
        self.0
    }

    fn write(&mut self, bytes: &[u8]) {
        let mut words = bytes.chunks_exact(8);
        for word in &mut words {
            self.write_u64(u64::from_le_bytes(word.try_into().expect("eight bytes")));
        }
        let rest = words.remainder();
        if !rest.is_empty() {
            self.write_u64(rest.iter().fold(1, |word, byte| word << 8 | u64::from(*byte)));
        }
    }

    fn write_u8(&mut self, number: u8) {
        self.write_u64(number.into());
    }

    fn write_u32(&mut self, number: u32) {
        self.write_u64(number.into());
    }

    fn write_u64(&mut self, number: u64) {
        let product = u128::from(self.0 ^ number) * MULTIPLIER;
        self.0 = product as u64 ^ (product >> 64) as u64;
    }

    fn write_usize(&mut self, number: usize) {
        self.write_u64(number as u64);
    }

    fn write_isize(&mut self, number: isize) {
        self.write_u64(number as u64);
    }
}
