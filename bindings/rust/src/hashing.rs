//! Hashes of keys: each word is mixed in by a product of 128 bits, folded to 64.
//!
//! The start and the factor are random numbers of the cache, so nobody can choose beforehand keys that have one hash; and who finds such
//! keys makes calls slower, and nothing else. SipHash, std's, takes some two hundred instructions more for a key of 16 bytes.
use std::hash::{BuildHasher, Hasher, RandomState};

/// How a cache hashes its keys.
pub(crate) struct Hashing {
    start: u64,
    factor: u64,
}

impl Hashing {
    pub(crate) fn new() -> Hashing {
        let random = RandomState::new();
        Hashing {
            start: random.hash_one("start"),
            factor: random.hash_one("factor") | 1,
        }
    }
}

impl BuildHasher for Hashing {
    type Hasher = KeyHasher;

    #[inline]
    fn build_hasher(&self) -> KeyHasher {
        KeyHasher {
            state: self.start,
            factor: self.factor,
        }
    }
}

/// Hashes one key.
pub(crate) struct KeyHasher {
    state: u64,
    factor: u64,
}

impl KeyHasher {
    #[inline]
    fn mix(&mut self, word: u64) {
        self.state = folded(self.state ^ word, self.factor);
    }
}

#[inline]
fn folded(left: u64, right: u64) -> u64 {
    let product = u128::from(left) * u128::from(right);
    product as u64 ^ (product >> 64) as u64
}

impl Hasher for KeyHasher {
    #[inline]
    fn finish(&self) -> u64 {
        folded(self.state, self.factor.rotate_left(32))
    }

    #[inline]
    fn write(&mut self, bytes: &[u8]) {
        let words = bytes.chunks_exact(8);
        let rest = words.remainder();
        for word in words {
            self.mix(u64::from_le_bytes(word.try_into().expect("it has eight")));
        }
        if !rest.is_empty() {
            let len = rest.len() as u64;
            self.mix(
                rest.iter()
                    .fold(len, |word, byte| word << 8 | u64::from(*byte)),
            );
        }
    }

    #[inline]
    fn write_u8(&mut self, number: u8) {
        self.mix(number.into());
    }

    #[inline]
    fn write_u16(&mut self, number: u16) {
        self.mix(number.into());
    }

    #[inline]
    fn write_u32(&mut self, number: u32) {
        self.mix(number.into());
    }

    #[inline]
    fn write_u64(&mut self, number: u64) {
        self.mix(number);
    }

    #[inline]
    fn write_usize(&mut self, number: usize) {
        self.mix(number as u64);
    }
}

#[cfg(test)]
mod tests {
    use super::*;
    use std::collections::HashSet;

    #[test]
    fn keys_spread_over_stripes_buckets_and_tags() {
        let hashing = Hashing::new();
        let hashes: Vec<u64> = (0..65_536)
            .map(|number| hashing.hash_one(format!("user{number:06}")))
            .collect();
        assert_eq!(hashes.iter().collect::<HashSet<_>>().len(), hashes.len());
        for shift in [0, 32, 57] {
            let mut counts = [0; 64];
            for hash in &hashes {
                counts[(hash >> shift) as usize % 64] += 1;
            }
            assert!(
                counts.iter().all(|it| (800..1250).contains(it)),
                "{counts:?}"
            );
        }
    }

    #[test]
    fn what_differs_in_length_or_kind_has_other_hashes() {
        let hashing = Hashing::new();
        let texts = [
            "",
            "a",
            "a\0",
            "\0a",
            "\0",
            "aaaaaaaa",
            "aaaaaaa",
            "aaaaaaaaa",
        ];
        let hashes: HashSet<u64> = texts.iter().map(|text| hashing.hash_one(text)).collect();
        assert_eq!(hashes.len(), texts.len());
        assert_eq!(hashing.hash_one("a"), hashing.hash_one(String::from("a")));
        assert_ne!(hashing.hash_one("a"), Hashing::new().hash_one("a"));
    }
}
