//! Calls of picnic_sign.
//!
//! The call takes a set number, the three tables, a secret and a public key,
//! a message, a block limit, seeds and working room, and writes the signature.
//! It refuses with 1 to 8. Where it got as far as 8, or is done, the needed
//! bytes of the room are zero.

use super::faults::{choices, other_lengths, within, Fault};
use super::statement::{self, define_tables, Pair, Shared};
use super::{answer, Argument, Call, Lent, Outcome, Piece, Sheet};
use crate::answers::Refusal;
use crate::hashing::derived_seeds;
use crate::sets::{Set, LONGEST_MESSAGE, SETS};

/// Where the choice of random keys, seeds and messages starts.
const SEED: u64 = 0x7069_636e_6963_0007;

/// The signatures of each set that are made, by the tables, the length of the
/// message, and the bytes that room and output have beyond what is needed. The
/// other sets take much longer.
const MADE: [&[(&str, usize, usize)]; 3] = [
    &[
        ("real", 1, 0),
        ("real", 100, 1),
        ("noise", 2, 0),
        ("noise", 33, 64),
        ("noise", 135, 0),
        ("noise", 136, 1),
        ("noise", 1000, 0),
        ("noise", LONGEST_MESSAGE, 0),
    ],
    &[("real", 1, 1), ("noise", 500, 0), ("noise", 72, 100)],
    &[("real", 40, 0), ("noise", 1, 77)],
];

/// The arguments of a call.
#[derive(Clone)]
struct Case {
    shared: Shared,
    secret: Vec<u8>,
    seeds: Lent,
    output: usize,
}

/// What the call must do.
fn outcome(case: &Case, sheet: &Sheet) -> Outcome {
    let other_key = |set: &Set| case.secret.len() != set.width();
    let other_room = |set: &Set| {
        case.seeds.bytes.len() != set.seeds_bytes() || case.output < set.longest_signature()
    };
    let held = case.shared.check(sheet, other_key, other_room)?;
    let statement = case.shared.statement(&held);
    statement.sign(&case.secret, &case.seeds.bytes)
}

/// picnic_sign.
struct Function;

/// The calls of it.
type Maker = super::Maker<Function>;

impl Maker {
    /// A case with a random pair, and seeds that are defined for it: derived
    /// ones or noise.
    fn case(&mut self, kind: &str, set: &Set, message: usize, derived: bool) -> Case {
        let pair = Pair::random(&self.sheet, kind, set, message, &mut self.noise);
        let shared = pair.shared;
        let seeds = if derived {
            let message = self.sheet.bytes(std::slice::from_ref(&shared.message));
            Piece::Hex(derived_seeds(set, &pair.secret, &shared.public, &message))
        } else {
            let (seed, length) = (self.noise.number(), set.seeds_bytes());
            Piece::Noise { seed, length }
        };
        let name = format!("seeds-{}-{}", set.number, self.sheet.calls().len());
        self.sheet.define(&name, vec![seeds]);
        Case {
            shared,
            secret: pair.secret,
            seeds: self.sheet.lend(&name),
            output: set.longest_signature(),
        }
    }

    /// Adds the call of a case, and gives its outcome.
    fn add(&mut self, label: String, case: &Case) -> Outcome {
        let outcome = outcome(case, &self.sheet);
        let shared = &case.shared;
        let mut arguments = vec![Argument::Number(shared.set)];
        arguments.extend(shared.tables.arguments(&self.sheet));
        arguments.extend([
            Argument::Input(vec![Piece::Hex(case.secret.clone())]),
            Argument::Input(vec![Piece::Hex(shared.public.clone())]),
            Argument::Input(vec![shared.message.clone()]),
            Argument::Number(shared.limit),
            self.sheet.input(&case.seeds),
            shared.room(outcome.as_ref().err().copied()),
            Argument::Written {
                length: case.output,
                start: outcome
                    .iter()
                    .map(|bytes| Piece::Hex(bytes.clone()))
                    .collect(),
            },
        ]);
        self.sheet.add(Call {
            label: format!("sign-{label}"),
            function: "picnic_sign",
            arguments,
            answer: answer(&outcome),
        });
        outcome
    }

    /// Signatures, every other one with derived seeds.
    fn made(&mut self, set: &Set) {
        let made = MADE[set.number as usize - 1];
        for (i, &(kind, message, more)) in made.iter().enumerate() {
            let mut case = self.case(kind, set, message, i % 2 == 0);
            case.shared.room += more;
            case.output += more;
            let label = format!("{kind}-set{}-in{message}-more{more}", set.number);
            self.add(label, &case).expect("nothing is wrong with it");
        }
    }

    /// The least limit that is enough, and the one below it.
    fn limits(&mut self, set: &Set) {
        let mut case = self.case("noise", set, 50, false);
        let enough = (1..=64).find(|&limit| {
            case.shared.limit = limit;
            outcome(&case, &self.sheet).is_ok()
        });
        let enough = enough.expect("64 blocks are enough");
        for (limit, expected) in [(enough, None), (enough - 1, Some(Refusal::Blocks))] {
            case.shared.limit = limit;
            case.shared.room += 3;
            let label = format!("limit{limit}-set{}", set.number);
            let outcome = self.add(label, &case);
            assert_eq!(outcome.err(), expected, "{limit}");
        }
    }

    /// One bit of the public key or of the secret key is another.
    fn other_pairs(&mut self, set: &Set) {
        let w = set.width();
        for place in [0, w - 1, w, 2 * w - 1] {
            let mut case = self.case("noise", set, 20, false);
            case.shared.public[place] ^= 1;
            let label = format!("no-pair-set{}-public{place}", set.number);
            assert_eq!(self.add(label, &case), Err(Refusal::Pair));
        }
        for place in [0, w - 1] {
            let mut case = self.case("noise", set, 20, false);
            case.secret[place] ^= 0x80;
            let label = format!("no-pair-set{}-secret{place}", set.number);
            assert_eq!(self.add(label, &case), Err(Refusal::Pair));
        }
    }

    fn refused(&mut self, set: &Set) {
        let good = self.case("noise", set, 40, false);
        for choice in choices(&faults(), set.number as usize) {
            let mut case = good.clone();
            choice.spoil(&mut case);
            let label = format!("refused-set{}-{}", set.number, choice.label());
            let outcome = self.add(label, &case);
            assert_eq!(outcome, Err(choice.refusal()), "{}", choice.label());
        }
    }
}

/// Something wrong with the arguments.
type Wrong = Fault<Case>;

/// All that can be wrong.
fn faults() -> Vec<Wrong> {
    let mut faults = within(statement::faults(), |case: &mut Case| &mut case.shared);
    faults.extend(within(
        other_lengths("secret", Refusal::Key),
        |case: &mut Case| &mut case.secret,
    ));
    faults.extend(within(
        other_lengths("seeds", Refusal::Room),
        |case: &mut Case| &mut case.seeds.bytes,
    ));
    faults.extend([
        Wrong::new("output-short", Refusal::Room, |case| case.output -= 1),
        Wrong::new("output-empty", Refusal::Room, |case| case.output = 0),
        Wrong::new("no-pair", Refusal::Pair, |case| case.shared.public[3] ^= 4),
        Wrong::new("one-block", Refusal::Blocks, |case| case.shared.limit = 1),
    ]);
    faults
}

/// The file of calls.
pub fn sheet() -> Sheet {
    let mut maker = Maker::new(Function, SEED);
    for set in &SETS {
        define_tables(&mut maker.sheet, set, &mut maker.noise);
        maker.made(set);
        maker.limits(set);
        maker.other_pairs(set);
        maker.refused(set);
    }
    maker.sheet
}

#[cfg(test)]
mod tests {
    use super::*;
    use crate::calls::tests::check_rooms;

    /// There are calls of every outcome; a signature is written by just those
    /// that are done.
    #[test]
    fn the_sheet_has_calls_of_every_outcome() {
        let sheet = sheet();
        for call in sheet.calls() {
            let (_, _, output) = sheet.ends(call);
            assert_eq!(call.answer & 0xffff_ffff, output.len() as u64);
        }
        let counts = check_rooms(&sheet, 9);
        assert!(counts[..9].iter().all(|&count| count >= 6), "{counts:?}");
        assert_eq!(counts[9..], [0; 4]);
        assert_eq!(counts[0], 8 + 3 + 2 + 3);
        assert!(sheet.to_string().len() < 6_000_000);
    }
}
