//! The challenge: values 0, 1 and 2 that are read from hashed blocks.
//!
//! Block 1 is H_1 of the input, and each later block is H_1 of the block
//! before. Pairs of bits are read in order; 00, 01 and 10 give a value, and 11
//! gives nothing.

use crate::bits::bit;
use crate::hashing::digest;
use crate::sets::Set;

/// The values that a byte string gives, in order.
pub fn values(block: &[u8]) -> Vec<u8> {
    (0..4 * block.len())
        .map(|j| 2 * u8::from(bit(block, 2 * j)) + u8::from(bit(block, 2 * j + 1)))
        .filter(|&value| value < 3)
        .collect()
}

/// The T values of a challenge, if so many blocks give them.
pub fn challenge(set: &Set, input: &[u8], limit: u64) -> Option<Vec<u8>> {
    let mut found = Vec::new();
    let mut block = digest(set, 1, &[input]);
    for _ in 0..limit {
        found.extend(values(&block));
        if found.len() >= set.t {
            found.truncate(set.t);
            return Some(found);
        }
        block = digest(set, 1, &[&block]);
    }
    None
}

#[cfg(test)]
mod tests {
    use super::*;
    use crate::sets::SETS;

    /// P9 and P10 of 01.
    #[test]
    fn values_of_a_byte() {
        assert_eq!(values(&[0x1b]), [0, 1, 2]);
        assert_eq!(values(&[0xff]), []);
        assert_eq!(values(&[0x80, 0x06]), [2, 0, 0, 0, 0, 0, 1, 2]);
    }

    /// 128 pairs of one block cannot fill 219 places, nor can the blocks of
    /// the other sets; many blocks can, and more change nothing.
    #[test]
    fn blocks_that_are_enough() {
        for set in &SETS {
            assert_eq!(challenge(set, b"input", 1), None);
            let all = challenge(set, b"input", 64).expect("64 blocks are enough");
            assert_eq!(all.len(), set.t);
            let least = (1..=64).find(|&limit| challenge(set, b"input", limit).is_some());
            let least = least.expect("one of them is the first");
            assert!(least > 1);
            assert_eq!(challenge(set, b"input", least), Some(all));
        }
    }
}
