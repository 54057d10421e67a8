//! The parameter sets and the lengths that follow from them.
//!
//! Every length is computed from the numbers of the set. Two widths are kept
//! apart: that of a block of n bits, rounded up to whole bytes, and that of a
//! seed of S bits.

use crate::bits::width;
use crate::lowmc::Lowmc;
use crate::shake::Hash;

/// Bytes of the salt, in every set.
pub const SALT_BYTES: usize = 32;

/// The longest message; the shortest has one byte.
pub const LONGEST_MESSAGE: usize = 1_048_576;

/// The longest output of the hashing call.
pub const LONGEST_HASH_OUTPUT: usize = 1_048_576;

/// The highest block limit of a challenge; the lowest is one.
pub const HIGHEST_BLOCK_LIMIT: usize = 64;

/// One parameter set.
#[derive(Clone, Copy, Debug, PartialEq, Eq)]
pub struct Set {
    /// The number by which a host asks for the set.
    pub number: u64,
    /// The name in 001.
    pub name: &'static str,
    /// Bits of a LowMC key and block.
    pub n: usize,
    /// S-boxes in a LowMC round.
    pub s: usize,
    /// LowMC rounds.
    pub r: usize,
    /// Rounds of the proof, T in 001.
    pub t: usize,
    /// Bits of a seed, S in 001.
    pub seed_bits: usize,
    /// The hash function, which is also the key derivation function.
    pub hash: Hash,
    /// Bytes of a digest and so of a commitment.
    pub digest_bytes: usize,
}

/// The sets of 01.
pub static SETS: [Set; 3] = [
    Set {
        number: 1,
        name: "picnic-L1-FS",
        n: 128,
        s: 10,
        r: 20,
        t: 219,
        seed_bits: 128,
        hash: Hash::Shake128,
        digest_bytes: 32,
    },
    Set {
        number: 2,
        name: "picnic-L3-FS",
        n: 192,
        s: 10,
        r: 30,
        t: 329,
        seed_bits: 192,
        hash: Hash::Shake256,
        digest_bytes: 48,
    },
    Set {
        number: 3,
        name: "picnic-L5-FS",
        n: 256,
        s: 10,
        r: 38,
        t: 438,
        seed_bits: 256,
        hash: Hash::Shake256,
        digest_bytes: 64,
    },
];

impl Set {
    /// The set of this number, if there is one.
    pub fn by_number(number: u64) -> Option<&'static Set> {
        SETS.iter().find(|set| set.number == number)
    }

    /// The cipher of the set.
    pub fn lowmc(&self) -> Lowmc {
        Lowmc::new(self.n, self.s, self.r).expect("the numbers of a set suit a cipher")
    }

    /// Bytes of a block, a secret key or a share: w in 01.
    pub const fn width(&self) -> usize {
        width(self.n)
    }

    /// Bytes of a seed.
    pub const fn seed_width(&self) -> usize {
        width(self.seed_bits)
    }

    /// Bytes of a public key: ciphertext, then plaintext.
    pub const fn public_key_bytes(&self) -> usize {
        2 * self.width()
    }

    /// Bits of a transcript: one for each AND gate, three to an S-box.
    pub const fn transcript_bits(&self) -> usize {
        3 * self.r * self.s
    }

    /// Bytes of a transcript.
    pub const fn transcript_bytes(&self) -> usize {
        width(self.transcript_bits())
    }

    /// Bytes of the r + 1 key matrices.
    pub const fn key_table_bytes(&self) -> usize {
        (self.r + 1) * self.n * self.width()
    }

    /// Bytes of the r layer matrices.
    pub const fn layer_table_bytes(&self) -> usize {
        self.r * self.n * self.width()
    }

    /// Bytes of the r round constants.
    pub const fn constants_bytes(&self) -> usize {
        self.r * self.width()
    }

    /// Where the seed of a round and a party starts among the seeds.
    pub const fn seed_place(&self, round: usize, party: usize) -> usize {
        (3 * round + party) * self.seed_width()
    }

    /// Where the salt starts among the seeds, right after the last of them.
    pub const fn salt_place(&self) -> usize {
        self.seed_place(self.t, 0)
    }

    /// Bytes of all seeds and the salt.
    pub const fn seeds_bytes(&self) -> usize {
        self.salt_place() + SALT_BYTES
    }

    /// Bytes of working room that signing and verifying need.
    pub const fn room_bytes(&self) -> usize {
        9 * self.t * self.width()
    }

    /// Bytes of a signature's header: two bits for each value.
    pub const fn header_bytes(&self) -> usize {
        width(2 * self.t)
    }

    /// Bytes of the input share of party 2 in a round of a signature: none
    /// where the challenge value is 0.
    pub const fn share_bytes(&self, value: u8) -> usize {
        if value == 0 {
            0
        } else {
            self.width()
        }
    }

    /// Bytes of a round in a signature, by its challenge value: commitment,
    /// transcript, two seeds and input share.
    pub const fn round_bytes(&self, value: u8) -> usize {
        let fixed = self.digest_bytes + self.transcript_bytes() + 2 * self.seed_width();
        fixed + self.share_bytes(value)
    }

    /// Bytes of the signature that answers these challenge values.
    pub fn signature_bytes(&self, values: &[u8]) -> usize {
        let rounds: usize = values.iter().map(|&value| self.round_bytes(value)).sum();
        self.header_bytes() + SALT_BYTES + rounds
    }

    /// Bytes of the longest signature: every round has an input share.
    pub const fn longest_signature(&self) -> usize {
        self.header_bytes() + SALT_BYTES + self.t * self.round_bytes(1)
    }

    /// Bytes of the unpacked form: the values one a byte, the salt, and every
    /// round with room for an input share.
    pub const fn unpacked_bytes(&self) -> usize {
        self.t + SALT_BYTES + self.t * self.round_bytes(1)
    }
}

#[cfg(test)]
mod tests {
    use super::*;

    /// Holds a length of the three sets against three printed numbers.
    fn check(what: &str, length: impl Fn(&Set) -> usize, printed: [usize; 3]) {
        for (set, expected) in SETS.iter().zip(printed) {
            assert_eq!(length(set), expected, "{what} of {}", set.name);
        }
    }

    #[test]
    fn sets_are_those_of_the_table_in_01() {
        let table = [
            (1, "picnic-L1-FS", 128, 20, 10, 219, Hash::Shake128, 32),
            (2, "picnic-L3-FS", 192, 30, 10, 329, Hash::Shake256, 48),
            (3, "picnic-L5-FS", 256, 38, 10, 438, Hash::Shake256, 64),
        ];
        for (number, name, n, r, s, t, hash, digest_bytes) in table {
            let set = Set::by_number(number).expect("there is such a set");
            assert_eq!((set.number, set.name), (number, name));
            assert_eq!((set.n, set.r, set.s, set.t), (n, r, s, t), "{name}");
            assert_eq!((set.hash, set.digest_bytes), (hash, digest_bytes), "{name}");
            assert_eq!(set.seed_bits, n, "in 01, S = n");
        }
    }

    #[test]
    fn other_numbers_name_no_set() {
        for number in [0, 4, 257, (1 << 32) + 1, u64::MAX] {
            assert_eq!(Set::by_number(number), None, "{number}");
        }
    }

    #[test]
    fn transcripts_and_headers() {
        check("transcript", Set::transcript_bytes, [75, 113, 143]);
        check("header", Set::header_bytes, [55, 83, 110]);
        let padding = |set: &Set| 8 * set.transcript_bytes() - set.transcript_bits();
        check("transcript padding in bits", padding, [0, 4, 4]);
        let padding = |set: &Set| 8 * set.header_bytes() - 2 * set.t;
        check("header padding in bits", padding, [2, 6, 4]);
    }

    #[test]
    fn signature_lengths() {
        check("longest", Set::longest_signature, [34_032, 76_772, 132_856]);
        check("unpacked", Set::unpacked_bytes, [34_196, 77_018, 133_184]);
    }

    #[test]
    fn room_lengths() {
        check("room", Set::room_bytes, [31_536, 71_064, 126_144]);
    }

    /// Key lengths are printed in table 3 of 001.
    #[test]
    fn key_lengths() {
        check("secret key", Set::width, [16, 24, 32]);
        check("public key", Set::public_key_bytes, [32, 48, 64]);
    }

    #[test]
    fn signature_length_follows_the_values() {
        let set = &SETS[0];
        let mut values = [0; 219];
        assert_eq!(set.signature_bytes(&values), 30_528, "all values are 0");
        values[100] = 2;
        assert_eq!(set.signature_bytes(&values), 30_544, "one value is not 0");
        assert_eq!(set.signature_bytes(&[1; 219]), set.longest_signature());
    }

    /// Seeds: exactly 3·T·w + 32; the seed of round t and party j starts at
    /// (3t+j)·w, and the salt is last.
    #[test]
    fn seeds_by_the_formula_of_01() {
        check("seeds", Set::seeds_bytes, [10_544, 23_720, 42_080]);
        check(
            "seed 2 of round 5",
            |set| set.seed_place(5, 2),
            [272, 408, 544],
        );
        check("salt", Set::salt_place, [10_512, 23_688, 42_048]);
    }

    /// Key tables: (r+1)·n·w; layer tables: r·n·w; constants: r·w. In set 1
    /// these are 5,268 rows, the number of lines of a listing.
    #[test]
    fn tables_by_the_formula_of_01() {
        check("keys", Set::key_table_bytes, [43_008, 142_848, 319_488]);
        check("layers", Set::layer_table_bytes, [40_960, 138_240, 311_296]);
        check("constants", Set::constants_bytes, [320, 720, 1_216]);
        let set = &SETS[0];
        let bytes = set.key_table_bytes() + set.layer_table_bytes() + set.constants_bytes();
        assert_eq!(bytes / set.width(), 5_268);
    }

    /// The sets whose S-boxes cover the whole state keep S apart from n and
    /// have an n that does not divide by eight. Their longest signatures are
    /// printed in request M-110 and hold the formulas to both.
    #[test]
    fn lengths_where_block_and_seed_differ() {
        let printed = [
            (0, 129, 43, 32_061),
            (1, 192, 64, 71_179),
            (2, 255, 85, 126_286),
        ];
        for (level, n, s, longest) in printed {
            let set = Set {
                n,
                s,
                r: 4,
                ..SETS[level]
            };
            assert_eq!(set.longest_signature(), longest, "n = {n}");
        }
    }
}
