//! A round on words of 64 bits: as fast as a plain program over lent tables
//! gets. The tests hold it against the round bit by bit, which is the one to
//! read.
//!
//! All gates of a LowMC round are computed at once. States are linear, so the
//! three parties' states add up to the state of the encryption: the signer
//! computes that once, and in each round of the proof two parties only.

use std::array::from_fn;

use super::{gates_start, opened, place_of_party_0, View};
use crate::lowmc::words::{forward, three_places, xor, Block};
use crate::lowmc::{Lowmc, Tables};
use crate::sets::Set;

/// A set with its tables and a plaintext block, ready to compute rounds on
/// blocks of W words, of which the first G have all S-boxes.
pub struct Engine<'a, const W: usize, const G: usize> {
    set: &'a Set,
    cipher: Lowmc,
    tables: &'a Tables,
    block: Block<W>,
    /// The first bit of each S-box.
    firsts: Block<G>,
    /// All bits of the S-boxes.
    inside: Block<G>,
}

/// The states of an encryption: before each of the r layers of S-boxes, and
/// the ciphertext.
pub struct Encryption<const W: usize> {
    key: Block<W>,
    states: Vec<Block<W>>,
}

/// A party's shares of the bits c, b and a of all S-boxes, and its bits of the
/// tape for the gates ab, bc and ca, each at the first places.
#[derive(Clone, Copy)]
struct Wires<const G: usize> {
    a: Block<G>,
    b: Block<G>,
    c: Block<G>,
    tape: [Block<G>; 3],
}

/// A party's shares of the gates ab, bc and ca, at the first places.
type Gates<const G: usize> = [Block<G>; 3];

impl<'a, const W: usize, const G: usize> Engine<'a, W, G> {
    /// The engine for a plaintext block.
    pub fn new(set: &'a Set, tables: &'a Tables, block: &[u8]) -> Self {
        assert!(G <= W && 3 * set.s <= 64 * G, "all S-boxes lie in G words");
        let cipher = set.lowmc();
        let firsts = cipher.firsts();
        Engine {
            set,
            cipher,
            tables,
            block: cipher.block(block),
            firsts,
            inside: three_places(&firsts, &firsts, &firsts),
        }
    }

    /// The states of the encryption under a secret key.
    pub fn encryption(&self, secret: &[u8]) -> Encryption<W> {
        let key = self.cipher.block(secret);
        let mut states = Vec::new();
        self.cipher
            .encrypt_seen(self.tables, &key, &self.block, |state| states.push(state));
        Encryption { key, states }
    }

    /// The ciphertext of an encryption.
    pub fn ciphertext(&self, encryption: &Encryption<W>) -> Vec<u8> {
        self.bytes(&encryption.states[self.set.r])
    }

    /// Simulates three parties, as `super::simulate` does.
    pub fn simulate(&self, encryption: &Encryption<W>, tapes: &[Vec<u8>; 3]) -> [View; 3] {
        let keys = [0, 1].map(|j| self.cipher.block(&tapes[j]));
        let tapes: [Bits; 3] = from_fn(|j| Bits::new(&tapes[j]));
        let mut transcripts = [(); 3].map(|()| Transcript::new(self.set));
        let mut states = self.started(&keys, Some(0));
        for i in 1..=self.set.r {
            let all = three(&states, encryption.states[i - 1]);
            let wires: [Wires<G>; 3] = from_fn(|j| self.wires(&all[j], &tapes[j], j, i));
            for j in 0..3 {
                let gates = and(&wires[j], &wires[(j + 1) % 3]);
                transcripts[j].push(&three_places(&gates[0], &gates[1], &gates[2]), self.gates());
                if j < 2 {
                    states[j] = self.substituted(&states[j], &wires[j], &gates);
                }
            }
            states = self.layered(&states, &keys, Some(0), i);
        }
        let inputs = three(&keys, encryption.key);
        let outputs = three(&states, encryption.states[self.set.r]);
        let [x, y, z] = transcripts;
        [(0, x), (1, y), (2, z)].map(|(j, transcript)| View {
            input: self.bytes(&inputs[j]),
            transcript: transcript.bytes(self.set),
            output: self.bytes(&outputs[j]),
        })
    }

    /// Recomputes two parties, as `super::recompute` does.
    pub fn recompute(
        &self,
        value: u8,
        tapes: &[Vec<u8>; 2],
        share: &[u8],
        transcript: &[u8],
    ) -> [View; 2] {
        let constants_to = place_of_party_0(value);
        let keys = from_fn(|j| match opened(value, j) {
            2 => self.cipher.block(share),
            _ => self.cipher.block(&tapes[j]),
        });
        let tapes: [Bits; 2] = from_fn(|j| Bits::new(&tapes[j]));
        let given = Bits::new(transcript);
        let mut found = Transcript::new(self.set);
        let mut states = self.started(&keys, constants_to);
        for i in 1..=self.set.r {
            let wires: [Wires<G>; 2] =
                from_fn(|j| self.wires(&states[j], &tapes[j], opened(value, j), i));
            let first = and(&wires[0], &wires[1]);
            found.push(&three_places(&first[0], &first[1], &first[2]), self.gates());
            let second = self.thirds(&given.at(self.gates() * (i - 1)));
            states = [
                self.substituted(&states[0], &wires[0], &first),
                self.substituted(&states[1], &wires[1], &second),
            ];
            states = self.layered(&states, &keys, constants_to, i);
        }
        [(0, found.bytes(self.set)), (1, transcript.to_vec())].map(|(j, transcript)| View {
            input: self.bytes(&keys[j]),
            transcript,
            output: self.bytes(&states[j]),
        })
    }

    /// Gates in a LowMC round.
    fn gates(&self) -> usize {
        3 * self.set.s
    }

    /// The states before the first layer of S-boxes.
    fn started(&self, keys: &[Block<W>; 2], constants_to: Option<usize>) -> [Block<W>; 2] {
        let mut states = self.cipher.products(&self.tables.keys, 0, keys);
        if let Some(party) = constants_to {
            states[party] = xor(states[party], self.block);
        }
        states
    }

    /// The states after layer, constant and key of LowMC round i.
    fn layered(
        &self,
        states: &[Block<W>; 2],
        keys: &[Block<W>; 2],
        constants_to: Option<usize>,
        i: usize,
    ) -> [Block<W>; 2] {
        let layers = self.cipher.products(&self.tables.layers, i - 1, states);
        let keys = self.cipher.products(&self.tables.keys, i, keys);
        let mut states = from_fn(|j| xor(layers[j], keys[j]));
        if let Some(party) = constants_to {
            let constant = self.cipher.constant_block(&self.tables.constants, i - 1);
            states[party] = xor(states[party], constant);
        }
        states
    }

    /// What a party has at the gates of LowMC round i.
    fn wires(&self, state: &Block<W>, tape: &Bits, party: usize, i: usize) -> Wires<G> {
        let place = gates_start(self.set, party) + self.gates() * (i - 1);
        let [c, b, a] = self.thirds(&from_fn(|word| state[word]));
        Wires {
            a,
            b,
            c,
            tape: self.thirds(&tape.at(place)),
        }
    }

    /// The bits of a string at the first, second and third places of the
    /// S-boxes, brought to the first places.
    fn thirds(&self, bits: &Block<G>) -> [Block<G>; 3] {
        let (second, third) = (forward(bits, 1), forward(bits, 2));
        [bits, &second, &third].map(|bits| from_fn(|i| bits[i] & self.firsts[i]))
    }

    /// A party's state after the S-boxes.
    fn substituted(&self, state: &Block<W>, wires: &Wires<G>, gates: &Gates<G>) -> Block<W> {
        let Wires { a, b, c, .. } = wires;
        let [ab, bc, ca] = gates;
        let new_a: Block<G> = from_fn(|i| a[i] ^ bc[i]);
        let new_b: Block<G> = from_fn(|i| a[i] ^ b[i] ^ ca[i]);
        let new_c: Block<G> = from_fn(|i| a[i] ^ b[i] ^ c[i] ^ ab[i]);
        let new = three_places(&new_c, &new_b, &new_a);
        let mut state = *state;
        for i in 0..G {
            state[i] = state[i] & !self.inside[i] | new[i];
        }
        state
    }

    fn bytes(&self, block: &Block<W>) -> Vec<u8> {
        self.cipher.block_bytes(block)
    }
}

/// Two shares and the third, by what all of them add up to.
fn three<const W: usize>(two: &[Block<W>; 2], sum: Block<W>) -> [Block<W>; 3] {
    [two[0], two[1], xor(sum, xor(two[0], two[1]))]
}

/// A party's shares of all gates, from its own wires and the next party's.
fn and<const G: usize>(own: &Wires<G>, next: &Wires<G>) -> Gates<G> {
    let gate = |x: &Block<G>, y: &Block<G>, next_x: &Block<G>, next_y: &Block<G>, k: usize| {
        from_fn(|i| {
            (x[i] & (y[i] ^ next_y[i])) ^ (next_x[i] & y[i]) ^ own.tape[k][i] ^ next.tape[k][i]
        })
    };
    [
        gate(&own.a, &own.b, &next.a, &next.b, 0),
        gate(&own.b, &own.c, &next.b, &next.c, 1),
        gate(&own.c, &own.a, &next.c, &next.a, 2),
    ]
}

/// A bit string to be read at any place; zeros stand behind it.
struct Bits {
    words: Vec<u64>,
}

impl Bits {
    fn new(bytes: &[u8]) -> Bits {
        let word = |eight: &[u8]| {
            let mut whole = [0; 8];
            whole[..eight.len()].copy_from_slice(eight);
            u64::from_be_bytes(whole)
        };
        let words = bytes.chunks(8).map(word).collect();
        Bits { words }
    }

    /// The 64·G bits from a place on.
    fn at<const G: usize>(&self, place: usize) -> Block<G> {
        let word = |i: usize| self.words.get(i).copied().unwrap_or(0);
        let (first, by) = (place / 64, place % 64);
        from_fn(|i| {
            let (this, next) = (word(first + i), word(first + i + 1));
            if by == 0 {
                this
            } else {
                this << by | next >> (64 - by)
            }
        })
    }
}

/// A bit string that grows at its end.
struct Transcript {
    words: Vec<u64>,
    length: usize,
}

impl Transcript {
    fn new(set: &Set) -> Transcript {
        Transcript {
            words: vec![0; set.transcript_bits().div_ceil(64)],
            length: 0,
        }
    }

    /// Appends the first bits of a string, whose other bits are zero.
    fn push<const G: usize>(&mut self, bits: &Block<G>, count: usize) {
        let (first, by) = (self.length / 64, self.length % 64);
        for (i, word) in bits.iter().enumerate().take(count.div_ceil(64)) {
            self.words[first + i] |= word >> by;
            if by != 0 && first + i + 1 < self.words.len() {
                self.words[first + i + 1] |= word << (64 - by);
            }
        }
        self.length += count;
    }

    fn bytes(&self, set: &Set) -> Vec<u8> {
        let bytes = self.words.iter().flat_map(|word| word.to_be_bytes());
        bytes.take(set.transcript_bytes()).collect()
    }
}
