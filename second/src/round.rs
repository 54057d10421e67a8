//! A round of the proof: three parties that compute LowMC on shares, and two
//! of them recomputed from what a signature opens.
//!
//! Here the round is written bit by bit, as 001 words it in sections 6.2 to
//! 6.4; the module `words` has the same on words, for speed.

mod words;

use std::array::from_fn;

use crate::bits::{from_bytes, to_bytes};
use crate::lowmc::{xor, Lowmc, Tables};
use crate::sets::Set;

pub use words::{Encryption, Engine};

/// What a party sees in a round.
#[derive(Clone, Debug, Default, PartialEq, Eq)]
pub struct View {
    /// The party's share of the secret key.
    pub input: Vec<u8>,
    /// The party's share of what each AND gate gives.
    pub transcript: Vec<u8>,
    /// The party's share of the ciphertext.
    pub output: Vec<u8>,
}

/// Where a party's bits for the AND gates start in its tape: behind its input
/// share, if it draws that from the tape.
fn gates_start(set: &Set, party: usize) -> usize {
    if party < 2 {
        set.n
    } else {
        0
    }
}

/// The party at a place of the pair that a challenge value opens.
pub fn opened(value: u8, place: usize) -> usize {
    (usize::from(value) + place) % 3
}

/// Where among the opened parties party 0 is, which alone takes public
/// constants.
fn place_of_party_0(value: u8) -> Option<usize> {
    (0..2).find(|&place| opened(value, place) == 0)
}

/// A party's share of one AND gate, from its own shares and bit of the tape
/// and from those of the next party.
fn and((a, b, r): (bool, bool, bool), (next_a, next_b, next_r): (bool, bool, bool)) -> bool {
    (a & next_b) ^ (next_a & b) ^ (a & b) ^ r ^ next_r
}

/// Computes LowMC on the shares of N parties: their shares of the key, which
/// of them takes public constants, and what an AND gate gives. Gives their
/// shares of the ciphertext.
fn compute<const N: usize>(
    cipher: &Lowmc,
    tables: &Tables,
    block: &[u8],
    keys: &[Vec<bool>; N],
    constants_to: Option<usize>,
    mut gate: impl FnMut([bool; N], [bool; N]) -> [bool; N],
) -> [Vec<bool>; N] {
    let add_constant = |states: &mut [Vec<bool>; N], constant: Vec<bool>| {
        if let Some(party) = constants_to {
            states[party] = xor(&states[party], &constant);
        }
    };
    let mut states = from_fn(|j| cipher.multiply(&tables.keys, 0, &keys[j]));
    add_constant(&mut states, from_bytes(block, keys[0].len()));
    for i in 1..=cipher.rounds() {
        for first in (0..3 * cipher.sboxes()).step_by(3) {
            let bits = |place: usize| from_fn(|j| states[j][first + place]);
            let (c, b, a) = (bits(0), bits(1), bits(2));
            let (ab, bc, ca) = (gate(a, b), gate(b, c), gate(c, a));
            for j in 0..N {
                states[j][first + 2] = a[j] ^ bc[j];
                states[j][first + 1] = a[j] ^ b[j] ^ ca[j];
                states[j][first] = a[j] ^ b[j] ^ c[j] ^ ab[j];
            }
        }
        states = states.map(|state| cipher.multiply(&tables.layers, i - 1, &state));
        add_constant(&mut states, cipher.constant(&tables.constants, i - 1));
        states = from_fn(|j| xor(&states[j], &cipher.multiply(&tables.keys, i, &keys[j])));
    }
    states
}

/// Simulates three parties: LowMC of a block under a secret key, on shares
/// that the tapes give.
pub fn simulate(
    set: &Set,
    tables: &Tables,
    secret: &[u8],
    block: &[u8],
    tapes: &[Vec<u8>; 3],
) -> [View; 3] {
    let [first, second] = from_fn(|j| from_bytes(&tapes[j], set.n));
    let third = xor(&from_bytes(secret, set.n), &xor(&first, &second));
    let keys = [first, second, third];
    let tapes: [Vec<bool>; 3] = from_fn(|j| from_bytes(&tapes[j], 8 * tapes[j].len()));
    let mut transcripts: [Vec<bool>; 3] = Default::default();
    let gate = |a: [bool; 3], b: [bool; 3]| {
        let number = transcripts[0].len();
        let of = |j: usize| (a[j], b[j], tapes[j][gates_start(set, j) + number]);
        let shares = from_fn(|j| and(of(j), of((j + 1) % 3)));
        for j in 0..3 {
            transcripts[j].push(shares[j]);
        }
        shares
    };
    let outputs = compute(&set.lowmc(), tables, block, &keys, Some(0), gate);
    from_fn(|j| View {
        input: to_bytes(&keys[j]),
        transcript: to_bytes(&transcripts[j]),
        output: to_bytes(&outputs[j]),
    })
}

/// Recomputes the two parties that a challenge value opens, from their tapes,
/// the input share of party 2 if it is one of them, and the transcript of the
/// second.
pub fn recompute(
    set: &Set,
    tables: &Tables,
    block: &[u8],
    value: u8,
    tapes: &[Vec<u8>; 2],
    share: &[u8],
    transcript: &[u8],
) -> [View; 2] {
    let input = |j: usize| match opened(value, j) {
        2 => from_bytes(share, set.n),
        _ => from_bytes(&tapes[j], set.n),
    };
    let keys = [input(0), input(1)];
    let tapes: [Vec<bool>; 2] = from_fn(|j| from_bytes(&tapes[j], 8 * tapes[j].len()));
    let given = from_bytes(transcript, set.transcript_bits());
    let mut found = Vec::new();
    let gate = |a: [bool; 2], b: [bool; 2]| {
        let number = found.len();
        let of = |j: usize| {
            let place = gates_start(set, opened(value, j)) + number;
            (a[j], b[j], tapes[j][place])
        };
        let first = and(of(0), of(1));
        found.push(first);
        [first, given[number]]
    };
    let constants_to = place_of_party_0(value);
    let outputs = compute(&set.lowmc(), tables, block, &keys, constants_to, gate);
    let transcripts = [found, given];
    from_fn(|j| View {
        input: to_bytes(&keys[j]),
        transcript: to_bytes(&transcripts[j]),
        output: to_bytes(&outputs[j]),
    })
}

#[cfg(test)]
mod tests {
    use super::*;
    use crate::noise::Noise;
    use crate::sets::SETS;

    /// P11 of 01: a = (1,0,0), b = (0,1,0), tape bits (1,0,1): the gate gives
    /// (0,1,0).
    #[test]
    fn gate_of_01() {
        let (a, b) = ([true, false, false], [false, true, false]);
        let r = [true, false, true];
        let of = |j: usize| (a[j], b[j], r[j]);
        let shares: [bool; 3] = from_fn(|j| and(of(j), of((j + 1) % 3)));
        assert_eq!(shares, [false, true, false]);
    }

    /// A gate's shares add up to the product, whatever the tapes.
    #[test]
    fn gates_multiply() {
        for bits in 0..512 {
            let bit = |i: usize| bits >> i & 1 == 1;
            let of = |j: usize| (bit(j), bit(3 + j), bit(6 + j));
            let shares: [bool; 3] = from_fn(|j| and(of(j), of((j + 1) % 3)));
            let sum = |from: usize| bit(from) ^ bit(from + 1) ^ bit(from + 2);
            assert_eq!(shares[0] ^ shares[1] ^ shares[2], sum(0) & sum(3), "{bits}");
        }
    }

    /// Sets with few rounds, so that the tests are quick: those of 01, and one
    /// whose S-boxes lie across words.
    fn sets() -> [Set; 4] {
        let short = |set: Set| Set { r: 4, ..set };
        let wide = Set { s: 30, ..SETS[0] };
        [SETS[0], SETS[1], SETS[2], wide].map(short)
    }

    /// What a round is computed from.
    struct Given {
        tables: Tables,
        secret: Vec<u8>,
        block: Vec<u8>,
        tapes: [Vec<u8>; 3],
    }

    impl Given {
        fn new(set: &Set, noise: &mut Noise) -> Given {
            let transcript = set.transcript_bytes();
            let shared = set.width() + transcript;
            Given {
                tables: Tables {
                    keys: noise.bytes(set.key_table_bytes()),
                    layers: noise.bytes(set.layer_table_bytes()),
                    constants: noise.bytes(set.constants_bytes()),
                },
                secret: noise.bytes(set.width()),
                block: noise.bytes(set.width()),
                tapes: [shared, shared, transcript].map(|length| noise.bytes(length)),
            }
        }

        fn simulate(&self, set: &Set) -> [View; 3] {
            simulate(set, &self.tables, &self.secret, &self.block, &self.tapes)
        }
    }

    fn sum(strings: [&[u8]; 3]) -> Vec<u8> {
        let places = 0..strings[0].len();
        places
            .map(|i| strings.iter().fold(0, |sum, x| sum ^ x[i]))
            .collect()
    }

    /// Input shares add up to the secret key, output shares to the ciphertext.
    #[test]
    fn shares_add_up() {
        let mut noise = Noise::new(11);
        for set in &sets() {
            let given = Given::new(set, &mut noise);
            let [x, y, z] = given.simulate(set);
            let cipher = set.lowmc();
            let ciphertext = cipher.encrypt(&given.tables, &given.secret, &given.block);
            assert_eq!(sum([&x.input, &y.input, &z.input]), given.secret);
            assert_eq!(sum([&x.output, &y.output, &z.output]), ciphertext);
            assert_eq!(x.input, given.tapes[0][..set.width()]);
            assert_eq!(x.transcript.len(), set.transcript_bytes());
        }
    }

    /// What a signature opens of a round gives the opened views back; another
    /// transcript, share or tape does not.
    #[test]
    fn opened_views_are_recomputed() {
        let mut noise = Noise::new(12);
        for set in &sets() {
            let given = Given::new(set, &mut noise);
            let views = given.simulate(set);
            for value in 0..3 {
                let parties = [0, 1].map(|place| opened(value, place));
                let tapes = parties.map(|party| given.tapes[party].clone());
                let expected = parties.map(|party| views[party].clone());
                let again = |tapes: &[Vec<u8>; 2], share: &[u8], transcript: &[u8]| {
                    let (tables, block) = (&given.tables, &given.block);
                    recompute(set, tables, block, value, tapes, share, transcript)
                };
                let (share, transcript) = (&views[2].input, &expected[1].transcript);
                assert_eq!(again(&tapes, share, transcript), expected, "{value}");
                let mut other = transcript.clone();
                other[0] ^= 0x80;
                assert_ne!(again(&tapes, share, &other), expected);
                let mut other = share.clone();
                other[0] ^= 0x80;
                assert_eq!(again(&tapes, &other, transcript) == expected, value == 0);
                let mut other = tapes.clone();
                other[0][gates_start(set, parties[0]) / 8] ^= 0x80;
                assert_ne!(again(&other, share, transcript), expected);
            }
        }
    }

    /// Both rounds on words are those bit by bit.
    fn check_words<const W: usize, const G: usize>(set: &Set, noise: &mut Noise) {
        let given = Given::new(set, noise);
        let engine = Engine::<W, G>::new(set, &given.tables, &given.block);
        let views = given.simulate(set);
        let encryption = engine.encryption(&given.secret);
        assert_eq!(engine.simulate(&encryption, &given.tapes), views);
        for value in 0..3 {
            let tapes = [0, 1].map(|place| given.tapes[opened(value, place)].clone());
            let mut transcript = noise.bytes(set.transcript_bytes());
            let padding = 8 * transcript.len() - set.transcript_bits();
            *transcript.last_mut().unwrap() &= 0xff << padding;
            let (tables, block, share) = (&given.tables, &given.block, &noise.bytes(set.width()));
            assert_eq!(
                engine.recompute(value, &tapes, share, &transcript),
                recompute(set, tables, block, value, &tapes, share, &transcript)
            );
        }
    }

    #[test]
    fn words_are_as_bits() {
        let mut noise = Noise::new(13);
        for set in sets().iter().chain(&SETS) {
            match (set.n.div_ceil(64), (3 * set.s).div_ceil(64)) {
                (2, 1) => check_words::<2, 1>(set, &mut noise),
                (2, 2) => check_words::<2, 2>(set, &mut noise),
                (3, 1) => check_words::<3, 1>(set, &mut noise),
                (4, 1) => check_words::<4, 1>(set, &mut noise),
                other => panic!("no set has {other:?} words"),
            }
        }
    }
}
