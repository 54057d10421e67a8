//! The program's own speed, to stand beside the library's.

use std::sync::Arc;
use std::time::Instant;

use crate::hashing::{derived_seeds, kdf};
use crate::known::{Known, KNOWN};
use crate::lowmc::Tables;
use crate::picnic::Statement;
use crate::sets::{Set, HIGHEST_BLOCK_LIMIT};
use crate::shake::shake;
use crate::signature::Signature;
use crate::work::{encryption, Task, Work};

/// What was measured.
pub struct Measured {
    /// Nanoseconds for each time that the work was done, in the quickest turn:
    /// other work on the machine only ever adds.
    pub nanoseconds: f64,
    /// What the work led to, by which two programs can tell that they did the
    /// same.
    pub last: Vec<u8>,
}

/// How often work is done: so many times in each of so many turns.
#[derive(Clone, Copy)]
pub struct Turns {
    /// How many turns there are.
    pub turns: usize,
    /// How many times the work is done in each.
    pub times: usize,
}

impl Turns {
    /// Nanoseconds for each time.
    fn measure(self, mut work: impl FnMut()) -> f64 {
        let turn = |_| {
            let start = Instant::now();
            (0..self.times).for_each(|_| work());
            start.elapsed()
        };
        let least = (0..self.turns).map(turn).min().unwrap_or_default();
        least.as_nanos() as f64 / self.times as f64
    }
}

/// The known encryption of a set, whose key and block are used here.
fn known(set: &Set) -> &'static Known {
    let cipher = set.lowmc();
    let found = KNOWN.iter().find(|known| known.lowmc() == cipher);
    found.expect("a block of every set is known")
}

/// Times encryptions by words over the drawn tables of a set. The first is of
/// the set's known block; each other is of what the one before gave, under one
/// key.
pub fn encryptions(set: &Set, turns: Turns) -> Measured {
    let (cipher, tables) = (set.lowmc(), set.lowmc().tables());
    let (key, mut block) = (known(set).key(), known(set).block());
    let nanoseconds = turns.measure(|| block = cipher.encrypt_by_words(&tables, &key, &block));
    Measured {
        nanoseconds,
        last: block,
    }
}

/// The input of a hash.
const HASHED: usize = 1 << 20;

/// Times the hashing of a long input, divided by the permutations that it
/// takes.
pub fn permutations(set: &Set, turns: Turns) -> Measured {
    let input: Vec<u8> = (0..HASHED).map(|i| (i % 251) as u8).collect();
    let mut last = vec![];
    let nanoseconds = turns.measure(|| last = shake(set.hash, &input, 32));
    let permutations = HASHED / set.hash.rate() + 1;
    Measured {
        nanoseconds: nanoseconds / permutations as f64,
        last,
    }
}

/// The message that is signed.
const MESSAGE: &[u8] = b"A package of record layouts and call sheets.";

/// A signature to be made: the known key pair of a set, a message and derived
/// seeds.
struct Signer {
    set: &'static Set,
    tables: Arc<Tables>,
    secret: Vec<u8>,
    public: Vec<u8>,
    seeds: Vec<u8>,
}

impl Signer {
    fn new(set: &'static Set) -> Signer {
        let known = known(set);
        let (secret, public) = (known.key(), [known.ciphertext(), known.block()].concat());
        Signer {
            set,
            tables: set.lowmc().tables(),
            seeds: derived_seeds(set, &secret, &public, MESSAGE),
            secret,
            public,
        }
    }

    fn statement(&self) -> Statement<'_> {
        Statement {
            set: self.set,
            tables: &self.tables,
            public: &self.public,
            message: MESSAGE,
            limit: HIGHEST_BLOCK_LIMIT as u64,
        }
    }

    fn sign(&self) -> Vec<u8> {
        let signature = self.statement().sign(&self.secret, &self.seeds);
        signature.expect("the keys are a pair and the limit is high")
    }
}

/// A short mark of a signature.
fn mark(set: &Set, signature: &[u8]) -> Vec<u8> {
    kdf(set, &[signature], 16)
}

/// Times the signing of one message, and gives a digest of the signature.
pub fn signatures(set: &'static Set, turns: Turns) -> Measured {
    let signer = Signer::new(set);
    let mut signature = vec![];
    let nanoseconds = turns.measure(|| signature = signer.sign());
    Measured {
        nanoseconds,
        last: mark(set, &signature),
    }
}

/// Times the verifying of that signature.
pub fn verdicts(set: &'static Set, turns: Turns) -> Measured {
    let signer = Signer::new(set);
    let signature = signer.sign();
    let nanoseconds = turns.measure(|| {
        let verdict = signer.statement().verify(&signature);
        verdict.expect("the signature is valid");
    });
    Measured {
        nanoseconds,
        last: mark(set, &signature),
    }
}

/// How much work it is to encrypt a block, to sign that message, to sign it in
/// two passes, and to verify the signature.
pub fn work(set: &'static Set) -> [(&'static str, Work); 4] {
    let signer = Signer::new(set);
    let signature = signer.sign();
    let values = Signature::read(set, &signature).expect("it has its form");
    let enough = |&limit: &u64| {
        let statement = signer.statement();
        Statement { limit, ..statement }.verify(&signature).is_ok()
    };
    let blocks = (1..).find(enough).expect("some limit is enough");
    let task = Task {
        set,
        message: MESSAGE.len(),
        values: &values.values,
        blocks: blocks as usize,
    };
    [
        ("encrypt", encryption(set)),
        ("sign", task.sign()),
        ("sign-again", task.sign_again()),
        ("verify", task.verify()),
    ]
}

#[cfg(test)]
mod tests {
    use super::*;
    use crate::sets::SETS;
    use crate::work::counted;

    /// As often as is asked for, and the quickest turn counts.
    #[test]
    fn work_is_done_in_turns() {
        let mut done = 0;
        let nanoseconds = Turns { turns: 3, times: 5 }.measure(|| {
            done += 1;
            if done > 5 {
                std::thread::sleep(std::time::Duration::from_millis(2));
            }
        });
        assert_eq!(done, 15);
        assert!(nanoseconds < 1e6);
    }

    /// The same chain by the encryption bit by bit.
    #[test]
    fn each_encryption_takes_what_the_last_gave() {
        let set = &SETS[0];
        let measured = encryptions(set, Turns { turns: 3, times: 2 });
        let (cipher, tables) = (set.lowmc(), set.lowmc().tables());
        let mut block = KNOWN[0].block();
        for _ in 0..6 {
            block = cipher.encrypt(&tables, &KNOWN[0].key(), &block);
        }
        assert_eq!(measured.last, block);
        assert!(measured.nanoseconds > 0.0);
    }

    /// The signature that is verified is the one that is made.
    #[test]
    fn what_is_signed_is_verified() {
        let once = Turns { turns: 1, times: 1 };
        let (made, verified) = (signatures(&SETS[0], once), verdicts(&SETS[0], once));
        assert_eq!(made.last, verified.last);
    }

    /// The sums are the counts of what was done.
    #[test]
    fn work_is_counted() {
        for set in &SETS {
            let [encrypt, sign, again, verify] = work(set).map(|(_, work)| work);
            let signer = Signer::new(set);
            let mut signature = vec![];
            assert_eq!(counted::of(|| signature = signer.sign()), sign);
            let verdict = || assert_eq!(signer.statement().verify(&signature), Ok(()));
            assert_eq!(counted::of(verdict), verify);
            assert!(again.products > sign.products && again.permutations > sign.permutations);
            let once = || drop(encryptions(set, Turns { turns: 1, times: 1 }));
            assert_eq!(counted::of(once), encrypt);
            let hash = || drop(permutations(set, Turns { turns: 1, times: 1 }));
            assert_eq!(counted::of(hash).permutations, HASHED / set.hash.rate() + 1);
        }
    }
}
