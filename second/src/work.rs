//! How much work signing and verifying take: permutations of Keccak and
//! products with a matrix, from which a time follows that no program falls
//! below. The tests hold the sums against counts of what the program does.

use crate::hashing::tape_bytes;
use crate::round::opened;
use crate::sets::{Set, SALT_BYTES};

/// An amount of work.
#[derive(Clone, Copy, Debug, Default, PartialEq, Eq)]
pub struct Work {
    /// Permutations.
    pub permutations: usize,
    /// Products of a matrix and a vector.
    pub products: usize,
}

/// What the work is for, besides the set.
pub struct Task<'a> {
    /// The set.
    pub set: &'a Set,
    /// Bytes of the message.
    pub message: usize,
    /// The challenge values.
    pub values: &'a [u8],
    /// Blocks that the challenge took.
    pub blocks: usize,
}

/// Permutations of a hash: one for each full block of the input and one for
/// the last; none for the first block of output, and one for each other.
fn hash(set: &Set, input: usize, output: usize) -> usize {
    let rate = set.hash.rate();
    input / rate + output.div_ceil(rate)
}

/// Permutations of a digest with its prefix.
fn digest(set: &Set, input: usize) -> usize {
    hash(set, 1 + input, set.digest_bytes)
}

fn tape(set: &Set, party: usize) -> usize {
    let integers = 3 * 2;
    let input = set.digest_bytes + SALT_BYTES + integers;
    digest(set, set.seed_width()) + hash(set, input, tape_bytes(set, party))
}

fn commitment(set: &Set) -> usize {
    let view = 2 * set.width() + set.transcript_bytes();
    digest(set, set.seed_width()) + digest(set, set.digest_bytes + view)
}

/// Products of an encryption, or of one party of a round.
fn products(set: &Set) -> usize {
    2 * set.r + 1
}

/// An encryption.
pub fn encryption(set: &Set) -> Work {
    Work {
        permutations: 0,
        products: products(set),
    }
}

impl Task<'_> {
    fn challenge(&self) -> usize {
        let set = self.set;
        let shown = set.t * 3 * (set.width() + set.digest_bytes);
        let first = digest(
            set,
            shown + set.public_key_bytes() + SALT_BYTES + self.message,
        );
        first + (self.blocks - 1) * digest(set, set.digest_bytes)
    }

    /// Signing: one encryption, and in each round three tapes, two parties and
    /// three commitments; the third party follows from the encryption.
    pub fn sign(&self) -> Work {
        let set = self.set;
        let tapes: usize = (0..3).map(|party| tape(set, party)).sum();
        Work {
            permutations: set.t * (tapes + 3 * commitment(set)) + self.challenge(),
            products: (1 + 2 * set.t) * products(set),
        }
    }

    /// Signing without memory for all rounds: once the challenge is known,
    /// each round's tapes and parties are made again, and its commitments are
    /// still at hand.
    pub fn sign_again(&self) -> Work {
        let set = self.set;
        let tapes: usize = (0..3).map(|party| tape(set, party)).sum();
        let once = self.sign();
        Work {
            permutations: once.permutations + set.t * tapes,
            products: once.products + 2 * set.t * products(set),
        }
    }

    /// Verifying: in each round the tapes, parties and commitments of two.
    pub fn verify(&self) -> Work {
        let set = self.set;
        let tapes = |&value: &u8| -> usize {
            let parties = (0..2).map(|place| opened(value, place));
            parties.map(|party| tape(set, party)).sum()
        };
        let tapes: usize = self.values.iter().map(tapes).sum();
        Work {
            permutations: tapes + set.t * 2 * commitment(set) + self.challenge(),
            products: 2 * set.t * products(set),
        }
    }
}

#[cfg(test)]
pub mod counted {
    //! Counts of what this thread did, for tests.

    use super::Work;
    use std::cell::Cell;

    thread_local! {
        static DONE: Cell<Work> = const { Cell::new(Work { permutations: 0, products: 0 }) };
    }

    /// Adds to the counts.
    pub fn add(permutations: usize, products: usize) {
        let mut done = DONE.get();
        done.permutations += permutations;
        done.products += products;
        DONE.set(done);
    }

    /// The counts of some work alone.
    pub fn of(work: impl FnOnce()) -> Work {
        DONE.take();
        work();
        DONE.take()
    }
}
