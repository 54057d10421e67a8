//! Signing and verifying, as 001 has them in sections 6.2 and 6.3 and 02 mends
//! them.

use std::array::from_fn;

use crate::answers::Refusal;
use crate::challenge::challenge;
use crate::hashing::{commitment, tape};
use crate::lowmc::Tables;
use crate::round::{opened, Engine, View};
use crate::sets::Set;
use crate::signature::{Opening, Signature};

/// What a signature is of: a message under a public key, by a set and its
/// tables, with a limit to the blocks of the challenge. All lengths and the
/// limit must be legal.
#[derive(Clone, Copy)]
pub struct Statement<'a> {
    /// The set.
    pub set: &'a Set,
    /// The tables of its LowMC.
    pub tables: &'a Tables,
    /// The public key: ciphertext, then plaintext block.
    pub public: &'a [u8],
    /// The message.
    pub message: &'a [u8],
    /// How many blocks the challenge may take.
    pub limit: u64,
}

/// What goes into the challenge of a round.
struct Shown {
    outputs: [Vec<u8>; 3],
    commitments: [Vec<u8>; 3],
}

impl Statement<'_> {
    /// The signature under a secret key, with these seeds and salt. Refuses a
    /// secret key that does not belong to the public key, and a limit that is
    /// too low.
    pub fn sign(&self, secret: &[u8], seeds: &[u8]) -> Result<Vec<u8>, Refusal> {
        match self.words() {
            1 => self.sign_in::<1>(secret, seeds),
            2 => self.sign_in::<2>(secret, seeds),
            3 => self.sign_in::<3>(secret, seeds),
            _ => self.sign_in::<4>(secret, seeds),
        }
    }

    /// Verifies a signature: nothing if it is valid, else why it is refused.
    pub fn verify(&self, signature: &[u8]) -> Result<(), Refusal> {
        let signature = Signature::read(self.set, signature)?;
        let values = match self.words() {
            1 => self.challenge_of::<1>(&signature),
            2 => self.challenge_of::<2>(&signature),
            3 => self.challenge_of::<3>(&signature),
            _ => self.challenge_of::<4>(&signature),
        };
        match values.ok_or(Refusal::Blocks)? == signature.values {
            true => Ok(()),
            false => Err(Refusal::Differs),
        }
    }

    /// Words of 64 bits that hold a block.
    fn words(&self) -> usize {
        self.set.n.div_ceil(64)
    }

    /// The two halves of the public key.
    fn ciphertext(&self) -> &[u8] {
        &self.public[..self.set.width()]
    }

    fn block(&self) -> &[u8] {
        &self.public[self.set.width()..]
    }

    fn sign_in<const W: usize>(&self, secret: &[u8], seeds: &[u8]) -> Result<Vec<u8>, Refusal> {
        let engine = Engine::<W, 1>::new(self.set, self.tables, self.block());
        let encryption = engine.encryption(secret);
        if engine.ciphertext(&encryption) != self.ciphertext() {
            return Err(Refusal::Pair);
        }
        let salt = &seeds[self.set.salt_place()..];
        let (mut rounds, mut shown) = (vec![], vec![]);
        for t in 0..self.set.t {
            let tapes = from_fn(|j| tape(self.set, self.seed(seeds, t, j), salt, t, j));
            let views = engine.simulate(&encryption, &tapes);
            shown.push(Shown {
                commitments: from_fn(|j| self.commitment(self.seed(seeds, t, j), &views[j])),
                outputs: from_fn(|j| views[j].output.clone()),
            });
            rounds.push(views);
        }
        let values = self.challenge(&shown, salt).ok_or(Refusal::Blocks)?;
        let opening = |t: usize| self.opening(values[t], &rounds[t], &shown[t], seeds, t);
        let signature = Signature {
            openings: (0..self.set.t).map(opening).collect(),
            salt: salt.into(),
            values: values.clone(),
        };
        Ok(signature.bytes())
    }

    fn seed<'s>(&self, seeds: &'s [u8], round: usize, party: usize) -> &'s [u8] {
        let start = self.set.seed_place(round, party);
        &seeds[start..start + self.set.seed_width()]
    }

    fn commitment(&self, seed: &[u8], view: &View) -> Vec<u8> {
        commitment(self.set, seed, &view.input, &view.transcript, &view.output)
    }

    /// What the signature says of a round.
    fn opening(
        &self,
        value: u8,
        views: &[View; 3],
        shown: &Shown,
        seeds: &[u8],
        round: usize,
    ) -> Opening {
        let [first, second, closed] = from_fn(|place| opened(value, place));
        Opening {
            commitment: shown.commitments[closed].clone(),
            transcript: views[second].transcript.clone(),
            seeds: [first, second].map(|party| self.seed(seeds, round, party).into()),
            share: views[2].input[..self.set.share_bytes(value)].into(),
        }
    }

    /// The challenge of all rounds: output shares, commitments, public key,
    /// salt and message are hashed. 01 has the salt before the public key. By
    /// 02 known answers decide such a point, and those of the partner's program
    /// have it behind.
    fn challenge(&self, shown: &[Shown], salt: &[u8]) -> Option<Vec<u8>> {
        let outputs = shown.iter().flat_map(|round| &round.outputs);
        let commitments = shown.iter().flat_map(|round| &round.commitments);
        let mut input: Vec<u8> = outputs.chain(commitments).flatten().copied().collect();
        input.extend(self.public);
        input.extend(salt);
        input.extend(self.message);
        challenge(self.set, &input, self.limit)
    }

    /// The challenge that the rounds of a signature lead to.
    fn challenge_of<const W: usize>(&self, signature: &Signature) -> Option<Vec<u8>> {
        let engine = Engine::<W, 1>::new(self.set, self.tables, self.block());
        let rounds = signature.values.iter().zip(&signature.openings).enumerate();
        let shown: Vec<Shown> = rounds
            .map(|(t, (&value, opening))| {
                let tapes = from_fn(|place| {
                    let seed = &opening.seeds[place];
                    tape(self.set, seed, &signature.salt, t, opened(value, place))
                });
                let views = engine.recompute(value, &tapes, &opening.share, &opening.transcript);
                self.recomputed(value, opening, &views)
            })
            .collect();
        self.challenge(&shown, &signature.salt)
    }

    /// What goes into the challenge of a round of which two parties are
    /// recomputed: the third output share follows from the ciphertext, and the
    /// third commitment is given.
    fn recomputed(&self, value: u8, opening: &Opening, views: &[View; 2]) -> Shown {
        let shares = views[0].output.iter().zip(&views[1].output);
        let third = shares.zip(self.ciphertext()).map(|((x, y), c)| x ^ y ^ c);
        let mut outputs = [(); 3].map(|()| vec![]);
        let mut commitments = [(); 3].map(|()| vec![]);
        for (place, (view, seed)) in views.iter().zip(&opening.seeds).enumerate() {
            let party = opened(value, place);
            outputs[party] = view.output.clone();
            commitments[party] = self.commitment(seed, view);
        }
        outputs[opened(value, 2)] = third.collect();
        commitments[opened(value, 2)] = opening.commitment.clone();
        Shown {
            outputs,
            commitments,
        }
    }
}

#[cfg(test)]
mod tests {
    use super::*;
    use crate::hashing::derived_seeds;
    use crate::noise::Noise;
    use crate::sets::SETS;

    /// A key pair over the drawn tables, and the signature of a message with
    /// derived seeds.
    struct Signed {
        set: &'static Set,
        secret: Vec<u8>,
        public: Vec<u8>,
        signature: Vec<u8>,
    }

    const MESSAGE: &[u8] = b"a package";

    impl Signed {
        fn new(set: &'static Set) -> Signed {
            let mut noise = Noise::new(set.number);
            let (secret, block) = (noise.bytes(set.width()), noise.bytes(set.width()));
            let tables = set.lowmc().tables();
            let ciphertext = set.lowmc().encrypt(&tables, &secret, &block);
            let public = [ciphertext, block].concat();
            let mut signed = Signed {
                set,
                secret,
                public,
                signature: vec![],
            };
            signed.signature = signed.sign(64).expect("nothing is refused");
            signed
        }

        fn sign(&self, limit: u64) -> Result<Vec<u8>, Refusal> {
            let seeds = derived_seeds(self.set, &self.secret, &self.public, MESSAGE);
            self.with(|s| s.sign(&self.secret, &seeds), MESSAGE, limit)
        }

        fn verify(&self, signature: &[u8]) -> Result<(), Refusal> {
            self.with(|s| s.verify(signature), MESSAGE, 64)
        }

        fn with<T>(&self, f: impl Fn(&Statement) -> T, message: &[u8], limit: u64) -> T {
            f(&Statement {
                set: self.set,
                tables: &self.set.lowmc().tables(),
                public: &self.public,
                message,
                limit,
            })
        }
    }

    #[test]
    fn a_signature_is_accepted() {
        for set in &SETS {
            let signed = Signed::new(set);
            assert_eq!(signed.verify(&signed.signature), Ok(()), "{}", set.name);
            let read = Signature::read(set, &signed.signature).expect("it has its form");
            assert_eq!(signed.signature.len(), set.signature_bytes(&read.values));
            for value in 0..3 {
                let count = read.values.iter().filter(|&&found| found == value).count();
                assert!(count > set.t / 6, "{count} values are {value}");
            }
        }
    }

    /// One bit turned in each field of the first round of each value, in the
    /// salt, and in what is signed.
    #[test]
    fn what_is_changed_is_refused() {
        for set in &SETS {
            let signed = Signed::new(set);
            let read = Signature::read(set, &signed.signature).unwrap();
            let check = |what: &str, change: &dyn Fn(&mut Signature)| {
                let mut other = read.clone();
                change(&mut other);
                let verdict = signed.verify(&other.bytes());
                assert_eq!(verdict, Err(Refusal::Differs), "{}, {what}", set.name);
            };
            check("salt", &|s| s.salt[31] ^= 1);
            for value in 0..3 {
                let k = read.values.iter().position(|&found| found == value);
                let k = k.expect("every value is there");
                check("commitment", &|s| s.openings[k].commitment[0] ^= 1);
                check("transcript", &|s| s.openings[k].transcript[0] ^= 1);
                check("first seed", &|s| s.openings[k].seeds[0][0] ^= 1);
                check("second seed", &|s| s.openings[k].seeds[1][0] ^= 1);
                if value != 0 {
                    check("share", &|s| s.openings[k].share[0] ^= 1);
                    check("value", &|s| s.values[k] = 3 - value);
                }
            }
            let other = signed.with(|s| s.verify(&signed.signature), b"a Package", 64);
            assert_eq!(other, Err(Refusal::Differs));
        }
    }

    /// The keys must be a pair, and one block is too few.
    #[test]
    fn signing_refuses() {
        for set in &SETS {
            let mut signed = Signed::new(set);
            assert_eq!(signed.sign(1), Err(Refusal::Blocks));
            let verdict = signed.with(|s| s.verify(&signed.signature), MESSAGE, 1);
            assert_eq!(verdict, Err(Refusal::Blocks));
            signed.public[0] ^= 1;
            assert_eq!(signed.sign(64), Err(Refusal::Pair));
        }
    }
}
