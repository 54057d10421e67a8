//! Bytes without a pattern that follow from a seed, so that a file of calls
//! can give a long input as a seed and a length, and so that every run of the
//! program chooses the same cases.

/// The source of such bytes: a number x of 64 bits, not 0.
#[derive(Clone)]
pub struct Noise {
    x: u64,
}

impl Noise {
    /// The source that starts at a seed.
    pub fn new(seed: u64) -> Noise {
        assert_ne!(seed, 0, "from 0 no step leads away");
        Noise { x: seed }
    }

    /// One step: three shifts change x, and the answer is a multiple of it.
    pub fn number(&mut self) -> u64 {
        self.x ^= self.x >> 12;
        self.x ^= self.x << 25;
        self.x ^= self.x >> 27;
        self.x.wrapping_mul(0x2545_f491_4f6c_dd1d)
    }

    /// The next `length` bytes, each the highest byte of a step's number.
    pub fn bytes(&mut self, length: usize) -> Vec<u8> {
        (0..length).map(|_| (self.number() >> 56) as u8).collect()
    }

    /// A number from `least` to `most`.
    pub fn between(&mut self, least: usize, most: usize) -> usize {
        let choices = (most - least + 1) as u64;
        least + (self.number() % choices) as usize
    }
}

#[cfg(test)]
mod tests {
    use super::*;
    use crate::hex::to_hex;

    /// The same bytes stand in the C host's own test.
    #[test]
    fn bytes_of_two_seeds() {
        assert_eq!(to_hex(&Noise::new(1).bytes(8)), "47abb94d0ec8d0ac");
        let seed = 0xfedc_ba98_7654_3210;
        assert_eq!(to_hex(&Noise::new(seed).bytes(8)), "859a64fdfdc4488f");
    }

    #[test]
    fn numbers_stay_in_their_bounds_and_reach_them() {
        let mut noise = Noise::new(1);
        let chosen: Vec<usize> = (0..200).map(|_| noise.between(3, 7)).collect();
        assert_eq!(chosen.iter().min(), Some(&3));
        assert_eq!(chosen.iter().max(), Some(&7));
    }
}
