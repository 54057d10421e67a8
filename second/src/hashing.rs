//! What Picnic hashes: digests with a prefix, derived seeds, tapes and
//! commitments, as 01's section on hashing has them, with the tapes as 02
//! mends them.
//!
//! An input is given by its parts, which are taken in one after the other.

use crate::sets::Set;
use crate::shake::Sponge;

/// An integer beside seeds: 16 bits, the low byte first.
pub fn le16(number: usize) -> [u8; 2] {
    u16::try_from(number)
        .expect("integers beside seeds have 16 bits")
        .to_le_bytes()
}

/// KDF: the set's SHAKE, without a prefix.
pub fn kdf(set: &Set, parts: &[&[u8]], length: usize) -> Vec<u8> {
    let mut sponge = Sponge::new(set.hash);
    for part in parts {
        sponge.absorb(part);
    }
    let mut output = vec![0; length];
    sponge.close().squeeze(&mut output);
    output
}

/// H_i: hashes the byte i and then the parts, to one digest.
pub fn digest(set: &Set, i: u8, parts: &[&[u8]]) -> Vec<u8> {
    let mut prefixed: Vec<&[u8]> = vec![std::slice::from_ref(&i)];
    prefixed.extend(parts);
    kdf(set, &prefixed, set.digest_bytes)
}

/// The seeds and the salt that are derived to sign a message with. The width
/// of a seed goes in last, in bits.
pub fn derived_seeds(set: &Set, secret: &[u8], public: &[u8], message: &[u8]) -> Vec<u8> {
    let parts = [secret, message, public, &le16(set.seed_bits)];
    kdf(set, &parts, set.seeds_bytes())
}

/// Bytes of a party's tape. Parties 0 and 1 draw their input share from it;
/// every party draws one bit for each AND gate.
pub fn tape_bytes(set: &Set, party: usize) -> usize {
    let share = if party < 2 { set.width() } else { 0 };
    share + set.transcript_bytes()
}

/// The tape of a party in a round. The seed is hashed alone, with H_2; salt and
/// integers go into the KDF beside its digest.
pub fn tape(set: &Set, seed: &[u8], salt: &[u8], round: usize, party: usize) -> Vec<u8> {
    let length = tape_bytes(set, party);
    let seed = digest(set, 2, &[seed]);
    let parts = [&seed[..], salt, &le16(round), &le16(party), &le16(length)];
    kdf(set, &parts, length)
}

/// The commitment to a party's seed and view.
pub fn commitment(
    set: &Set,
    seed: &[u8],
    input_share: &[u8],
    transcript: &[u8],
    output_share: &[u8],
) -> Vec<u8> {
    let seed = digest(set, 4, &[seed]);
    digest(set, 0, &[&seed, input_share, transcript, output_share])
}

/// The expected values were computed once with Python's hashlib, a line for
/// each rule. There sh is shake_128 for set 1 and shake_256 for the others, w
/// the width, d the digest's bytes, and run(a, n) the n bytes a, a + 1 and so
/// on: bytes((a + i) % 256 for i in range(n)).
#[cfg(test)]
mod tests {
    use super::*;
    use crate::hex::to_hex;
    use crate::sets::{SALT_BYTES, SETS};

    /// Bytes that rise by one from a first.
    fn run(first: usize, length: usize) -> Vec<u8> {
        (first..first + length).map(|byte| byte as u8).collect()
    }

    #[test]
    fn integers_have_their_low_byte_first() {
        assert_eq!(le16(0), [0, 0]);
        assert_eq!(le16(192), [0xc0, 0x00]);
        assert_eq!(le16(437), [0xb5, 0x01]);
        assert_eq!(le16(0xfedc), [0xdc, 0xfe]);
    }

    #[test]
    #[should_panic(expected = "16 bits")]
    fn integers_of_more_bits_are_none() {
        le16(65_536);
    }

    /// Parts are one string, wherever it is cut.
    #[test]
    fn parts_are_joined() {
        for set in &SETS {
            let whole = kdf(set, &[b"onetwothree"], 50);
            assert_eq!(kdf(set, &[b"one", b"", b"two", b"three"], 50), whole);
        }
    }

    /// sh(b"abc").digest(8)
    #[test]
    fn kdf_is_the_sets_shake() {
        let expected = ["5881092dd818bf5c", "483366601360a877", "483366601360a877"];
        for (set, expected) in SETS.iter().zip(expected) {
            assert_eq!(to_hex(&kdf(set, &[b"abc"], 8)), expected, "{}", set.name);
        }
    }

    /// sh(bytes([i]) + b"abc").digest(d), for i = 3, and its first 8 bytes
    /// for i from 0 to 4.
    #[test]
    fn digests_have_their_prefix_and_length() {
        let whole = [
            "e2af26174751dd06871d15549d8d4e524fb68ab077d5291e32275d87e88a64d1",
            "a62a0c3da0e89311e3085b2ecbc38ccd73923f8d7b32233e393b5a5815348268\
             9083e9a6957db8eea54a400d8fce55b2",
            "a62a0c3da0e89311e3085b2ecbc38ccd73923f8d7b32233e393b5a5815348268\
             9083e9a6957db8eea54a400d8fce55b285b1b1f799bbf41119aa9802fce077c1",
        ];
        for (set, expected) in SETS.iter().zip(whole) {
            assert_eq!(to_hex(&digest(set, 3, &[b"abc"])), expected);
        }
        let starts = [
            "fbe18c3e0612e953",
            "943060d2d8a1b8e3",
            "29fe50c0ee969a6e",
            "e2af26174751dd06",
            "8073c83d62a844e7",
        ];
        for (i, expected) in (0..).zip(starts) {
            let got = digest(&SETS[0], i, &[b"a", b"bc"]);
            assert_eq!(to_hex(&got[..8]), expected, "prefix {i}");
        }
    }

    /// s = sh(run(0, w) + b"message" + run(64, 2 * w) + bytes([S % 256, S //
    /// 256])).digest(3 * T * w + 32): its length, its first 16 bytes, the
    /// salt, which is its last 32, and its SHAKE256 digest of 16 bytes.
    #[test]
    fn seeds_are_derived_from_keys_and_message() {
        let expected = [
            (
                10_544,
                "0fead362115b7bc1c9abc531d39abb6c",
                "0c6a30a4e79884dd7972753cd7012c692b3b12f4bb68a26f6c3269783d9b5f48",
                "a4005841db3a3dd0088505313a42b9fe",
            ),
            (
                23_720,
                "0f0bc80d04424da2250062c1d3158852",
                "72f25934ccb225ace4bb2438b130ae4860def76bf667f310da103b61113325f3",
                "744a15c911298856d6e8cb0e1ade616e",
            ),
            (
                42_080,
                "dd14e4bdf285d1bb3e17aab159eb98fc",
                "396b14258107ef46d04ee0506c8ea1a06171f921e5461a78400990d769240275",
                "b3b9097304e64802dcfec0347b4310c4",
            ),
        ];
        for (set, (length, start, salt, all)) in SETS.iter().zip(expected) {
            let (secret, public) = (run(0, set.width()), run(64, set.public_key_bytes()));
            let seeds = derived_seeds(set, &secret, &public, b"message");
            assert_eq!(seeds.len(), length, "{}", set.name);
            assert_eq!(to_hex(&seeds[..16]), start, "{}", set.name);
            assert_eq!(to_hex(&seeds[set.salt_place()..]), salt, "{}", set.name);
            let digest = crate::shake::shake(crate::shake::Hash::Shake256, &seeds, 16);
            assert_eq!(to_hex(&digest), all, "{}", set.name);
        }
    }

    /// Lengths in bytes of parties 0, 1 and 2.
    #[test]
    fn party_2_has_the_shorter_tape() {
        let lengths = [[91, 91, 75], [137, 137, 113], [175, 175, 143]];
        for (set, expected) in SETS.iter().zip(lengths) {
            assert_eq!([0, 1, 2].map(|party| tape_bytes(set, party)), expected);
        }
    }

    /// For L bytes, round t, party j, each number x as bytes([x % 256, x //
    /// 256]): sh(sh(bytes([2]) + run(128, w)).digest(d) + run(160, 32) + t + j +
    /// L).digest(L); the first and the last 8 bytes.
    #[test]
    fn tapes_follow_from_seed_salt_round_party_and_length() {
        let expected = [
            (0, 0, 0, "4f666aa2690747f4", "b11f747c67d90c6b"),
            (0, 5, 1, "8e3724aeb35f6efe", "88be393d92eef74e"),
            (0, 218, 2, "d5ce0a8c79ad6084", "14a54d7fdc648840"),
            (1, 0, 0, "ea9af99679976f3e", "8c1518ee1372907d"),
            (1, 5, 1, "f5ea554f16563314", "1405e56a41157258"),
            (1, 328, 2, "6ba98fd74555c00a", "f00d5da68c6128ff"),
            (2, 0, 0, "9a59349532a2bd90", "a96323d8414ac8eb"),
            (2, 5, 1, "29973a8bd99fd38b", "1194315f021e26ab"),
            (2, 437, 2, "dd61e34589e2f191", "9027c0a6c852af67"),
        ];
        for (level, round, party, start, end) in expected {
            let set = &SETS[level];
            let (seed, salt) = (run(128, set.seed_width()), run(160, SALT_BYTES));
            let tape = tape(set, &seed, &salt, round, party);
            let what = format!("{}, round {round}, party {party}", set.name);
            assert_eq!(tape.len(), tape_bytes(set, party), "{what}");
            assert_eq!(to_hex(&tape[..8]), start, "{what}");
            assert_eq!(to_hex(&tape[tape.len() - 8..]), end, "{what}");
        }
    }

    /// For a transcript of r bytes: sh(bytes([0]) + sh(bytes([4]) + run(128,
    /// w)).digest(d) + run(16, w) + run(48, r) + run(32, w)).digest(d)
    #[test]
    fn commitments_are_to_seed_and_view() {
        let expected = [
            "ca66cfc0965264c6d2b66d60ca4dc0682d6905158cbdea1ca2ccdb8845da8784",
            "0f758a850f0f777857ba4757546552ee248a55bdbe36e55d3601d074646e7c63\
             37515c6a733d308408eedb5b324da533",
            "05080b198c84161a289e8a242be1795ec8345149773199dfa0150534447970f9\
             9e3e2a7a3adbbcc43143cb62e64691025b76919fcf6abccdc5d5d45ab8db29d2",
        ];
        for (set, expected) in SETS.iter().zip(expected) {
            let seed = run(128, set.seed_width());
            let (input, output) = (run(16, set.width()), run(32, set.width()));
            let transcript = run(48, set.transcript_bytes());
            let got = commitment(set, &seed, &input, &transcript, &output);
            assert_eq!(to_hex(&got), expected, "{}", set.name);
        }
    }
}
