//! Calls of picnic_verify.
//!
//! The call takes a set number, the three tables, a public key, a message, a
//! block limit, working room and a signature. It refuses with 1 to 6, then as
//! reading does with 9, 10, 9 or 11, then with 8 or 12. Where it got as far as
//! 8 or 12, or the signature is valid, the needed bytes of the room are zero.
//!
//! What each must be answered is computed by the verifier of this program.

use super::faults::{choices, within, Fault};
use super::statement::{self, define_tables, Pair, Shared};
use super::strings::{field_ends, round_place, signature_faults};
use super::{Argument, Call, Lent, Piece, Sheet};
use crate::answers::{done, Refusal};
use crate::sets::{Set, LONGEST_MESSAGE, SALT_BYTES, SETS};
use crate::signature::Signature;

/// Where the choice of random keys, seeds and messages starts.
const SEED: u64 = 0x7069_636e_6963_0008;

/// The valid signatures of each set, by the tables and the length of the
/// message. The other sets take much longer.
const VALID: [&[(&str, usize)]; 3] = [
    &[
        ("real", 1),
        ("real", 200),
        ("noise", 31),
        ("noise", 167),
        ("noise", LONGEST_MESSAGE),
    ],
    &[("real", 64), ("noise", 1)],
    &[("real", 1), ("noise", 300)],
];

/// What the call must answer: 0 for a valid signature, or a refusal.
pub type Verdict = Result<(), Refusal>;

/// The arguments of a call.
#[derive(Clone)]
pub struct Case {
    /// What it shares with signing.
    pub shared: Shared,
    /// The signature.
    pub signature: Lent,
}

fn verdict(case: &Case, sheet: &Sheet) -> Verdict {
    let held = case.shared.check(sheet, |_| false, |_| false)?;
    case.shared.statement(&held).verify(&case.signature.bytes)
}

/// A change to what is signed, with its name.
type Other<'a> = (&'a str, &'a dyn Fn(&mut Shared));

/// picnic_verify.
pub struct Function;

/// The calls of it.
pub type Maker = super::Maker<Function>;

impl Maker {
    /// A case with a random pair and a valid signature, which is defined.
    pub fn case(&mut self, kind: &str, set: &Set, message: usize) -> Case {
        let pair = Pair::random(&self.sheet, kind, set, message, &mut self.noise);
        let seeds = self.noise.bytes(set.seeds_bytes());
        let held = pair.shared.check(&self.sheet, |_| false, |_| false);
        let held = held.expect("nothing is wrong with it");
        let signature = pair.shared.statement(&held).sign(&pair.secret, &seeds);
        let signature = signature.expect("the keys are a pair and the limit is high");
        let name = format!("signature-{}-{}", set.number, self.sheet.names());
        self.sheet.define(&name, vec![Piece::Hex(signature)]);
        Case {
            shared: pair.shared,
            signature: self.sheet.lend(&name),
        }
    }

    /// Adds the call of a case, and gives its verdict.
    pub fn add(&mut self, label: String, case: &Case) -> Verdict {
        let verdict = verdict(case, &self.sheet);
        let shared = &case.shared;
        let mut arguments = vec![Argument::Number(shared.set)];
        arguments.extend(shared.tables.arguments(&self.sheet));
        arguments.extend([
            Argument::Input(vec![Piece::Hex(shared.public.clone())]),
            Argument::Input(vec![shared.message.clone()]),
            Argument::Number(shared.limit),
            shared.room(verdict.err()),
            self.sheet.input(&case.signature),
        ]);
        self.sheet.add(Call {
            label: format!("verify-{label}"),
            function: "picnic_verify",
            arguments,
            answer: verdict.map_or_else(Refusal::answer, |()| done(0)),
        });
        verdict
    }

    /// Adds the call of a case after a change.
    fn changed(&mut self, label: String, case: &Case, change: impl Fn(&mut Case)) -> Verdict {
        let mut case = case.clone();
        change(&mut case);
        self.add(label, &case)
    }

    fn valid(&mut self, set: &Set) {
        for (i, &(kind, message)) in VALID[set.number as usize - 1].iter().enumerate() {
            let mut case = self.case(kind, set, message);
            case.shared.room += 50 * (i % 2);
            let label = format!("valid-{kind}-set{}-in{message}", set.number);
            self.add(label, &case).expect("the signature is valid");
        }
    }

    /// The least limit that is enough, and the one below it.
    fn limits(&mut self, set: &Set) {
        let mut case = self.case("noise", set, 50);
        let enough = (1..=64).find(|&limit| {
            case.shared.limit = limit;
            verdict(&case, &self.sheet).is_ok()
        });
        let enough = enough.expect("64 blocks are enough");
        for (limit, expected) in [(enough, Ok(())), (enough - 1, Err(Refusal::Blocks))] {
            case.shared.limit = limit;
            let label = format!("limit{limit}-set{}", set.number);
            assert_eq!(self.add(label, &case), expected, "{limit}");
        }
    }

    /// A valid signature of something else: message, key or tables.
    fn others(&mut self, set: &Set) {
        let case = self.case("noise", set, 60);
        let w = set.width();
        let changes: [Other; 7] = [
            ("message", &|s| s.message = Piece::Zeros(60)),
            ("ciphertext", &|s| s.public[0] ^= 0x80),
            ("block", &|s| s.public[w] ^= 0x80),
            ("keys", &|s| s.tables.keys.bytes[w + 1] ^= 1),
            ("layers", &|s| {
                *s.tables.layers.bytes.last_mut().unwrap() ^= 0x10
            }),
            ("constants", &|s| s.tables.constants.bytes[0] ^= 0x80),
            ("half", &|s| s.public.rotate_left(w)),
        ];
        for (name, change) in changes {
            let label = format!("other-{name}-set{}", set.number);
            self.changed(label, &case, |case| change(&mut case.shared))
                .expect_err("something else was signed");
        }
    }

    /// Each field of a round of each value, and salt and values, with one bit
    /// turned, at the start or at the end.
    fn fields(&mut self, set: &Set) {
        let case = self.case("noise", set, 25);
        let values = values(set, &case);
        for value in 0..3 {
            let round = last_of(&values, value);
            let mut start = round_place(set, &values, round);
            for (field, end) in field_ends(set, &values, round).into_iter().enumerate() {
                for (place, mask) in [(start, 0x80), (end - 1, 0x10)] {
                    if start == end {
                        continue;
                    }
                    let label = format!("field{field}-of{value}-set{}-at{place}", set.number);
                    self.turned(label, &case, place, mask);
                }
                start = end;
            }
        }
        let salt = set.header_bytes();
        for place in [salt, salt + SALT_BYTES - 1] {
            self.turned(format!("salt-set{}-at{place}", set.number), &case, place, 1);
        }
        for round in [last_of(&values, 1), last_of(&values, 2)] {
            let label = format!("value-set{}-round{round}", set.number);
            let (place, mask) = (round / 4, 3 << (6 - 2 * (round % 4)));
            self.turned(label, &case, place, mask);
        }
    }

    /// The signature with bits of one byte turned.
    fn turned(&mut self, label: String, case: &Case, place: usize, mask: u8) {
        self.changed(label, case, |case| case.signature.bytes[place] ^= mask)
            .expect_err("the signature is damaged");
    }

    /// Whole rounds, each also in the place of another of its value.
    fn rounds(&mut self, set: &Set) {
        let case = self.case("noise", set, 25);
        let values = values(set, &case);
        for value in 0..3 {
            let last = last_of(&values, value);
            let first = values.iter().position(|&found| found == value);
            let first = first.expect("every value is there");
            let length = set.round_bytes(value);
            let [from, to] = [first, last].map(|round| round_place(set, &values, round));
            let label = format!("copied-of{value}-set{}", set.number);
            self.changed(label, &case, |case| {
                case.signature.bytes.copy_within(from..from + length, to);
            })
            .expect_err("tapes depend on the round");
        }
    }

    fn refused(&mut self, set: &Set) {
        let good = self.case("noise", set, 40);
        let values = values(set, &good);
        for choice in choices(&faults(set, &values), set.number as usize) {
            let label = format!("refused-set{}-{}", set.number, choice.label());
            let verdict = self.changed(label, &good, |case| choice.spoil(case));
            assert_eq!(verdict, Err(choice.refusal()), "{}", choice.label());
        }
    }
}

/// The challenge values of a case's signature.
pub fn values(set: &Set, case: &Case) -> Vec<u8> {
    let signature = Signature::read(set, &case.signature.bytes);
    signature.expect("the signature is valid").values
}

/// The last round of a value.
fn last_of(values: &[u8], value: u8) -> usize {
    let last = values.iter().rposition(|&found| found == value);
    last.expect("every value is there")
}

/// Something wrong with the arguments.
type Wrong = Fault<Case>;

/// All that can be wrong.
fn faults(set: &Set, values: &[u8]) -> Vec<Wrong> {
    let mut faults = within(statement::faults(), |case: &mut Case| &mut case.shared);
    faults.extend(within(signature_faults(set, values), |case: &mut Case| {
        &mut case.signature.bytes
    }));
    faults.extend([
        Wrong::new("one-block", Refusal::Blocks, |case| case.shared.limit = 1)
            .after(Refusal::Padding),
        Wrong::new("other-message", Refusal::Differs, |case| {
            case.shared.message = Piece::Zeros(39);
        }),
    ]);
    faults
}

/// The file of calls of every kind.
pub fn sheet() -> Sheet {
    let mut maker = Maker::new(Function, SEED);
    for set in &SETS {
        define_tables(&mut maker.sheet, set, &mut maker.noise);
        maker.valid(set);
        maker.limits(set);
        maker.refused(set);
        maker.others(set);
        if set.number == 1 {
            maker.fields(set);
            maker.rounds(set);
        }
    }
    maker.sheet
}

#[cfg(test)]
mod tests {
    use super::*;
    use crate::calls::tests::check_rooms;

    /// There are calls of every outcome, more of those that take long to
    /// reach.
    #[test]
    fn the_sheet_has_calls_of_every_outcome() {
        let sheet = sheet();
        for call in sheet.calls() {
            assert_eq!(call.answer & 0xffff_ffff, 0, "{}", call.label);
        }
        let counts = check_rooms(&sheet, 7);
        for (refusal, &count) in counts.iter().enumerate() {
            let least = if refusal == 7 { 0 } else { 8 };
            assert!(count >= least, "{refusal}: {count}");
        }
        assert_eq!(counts[7], 0);
        assert!(counts[0] >= 12 && counts[12] >= 50);
        assert!(sheet.to_string().len() < 6_000_000);
    }
}
