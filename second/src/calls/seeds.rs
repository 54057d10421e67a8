//! Calls of picnic_seeds.
//!
//! The call takes a set number, a secret key, a public key and a message, and
//! derives the seeds to sign the message with. It refuses with 1, 3, 4 or 6.

use std::collections::BTreeSet;

use super::faults::{choices, no_sets, other_lengths, within, Fault};
use super::{random_piece, Argument, Call, Outcome, Piece, Sheet};
use crate::answers::Refusal;
use crate::hashing::derived_seeds;
use crate::sets::{Set, LONGEST_MESSAGE, SETS};

/// Where the choice of random lengths and inputs starts.
const SEED: u64 = 0x7069_636e_6963_0002;

/// Calls of random lengths for each set.
const RANDOM_CALLS: usize = 20;

/// Bytes that an output has beyond what is needed, in turn.
const MORE: [usize; 4] = [0, 1, 0, 64];

/// The arguments of a call.
struct Case {
    set: u64,
    secret: Vec<u8>,
    public: Vec<u8>,
    message: Piece,
    output: usize,
}

/// What the call must do.
fn outcome(case: &Case, message: &[u8]) -> Outcome {
    let set = Set::by_number(case.set).ok_or(Refusal::NoSet)?;
    if case.secret.len() != set.width() || case.public.len() != set.public_key_bytes() {
        return Err(Refusal::Key);
    }
    if message.is_empty() || message.len() > LONGEST_MESSAGE {
        return Err(Refusal::Message);
    }
    if case.output < set.seeds_bytes() {
        return Err(Refusal::Room);
    }
    Ok(derived_seeds(set, &case.secret, &case.public, message))
}

/// picnic_seeds.
struct Function;

/// The calls of it.
type Maker = super::Maker<Function>;

impl Maker {
    /// A case with a message of this length and an output that is longer than
    /// needed by `more`.
    fn case(&mut self, set: &Set, message: usize, more: usize) -> Case {
        Case {
            set: set.number,
            secret: self.noise.bytes(set.width()),
            public: self.noise.bytes(set.public_key_bytes()),
            message: random_piece(&mut self.noise, message),
            output: set.seeds_bytes() + more,
        }
    }

    /// Adds the call of a case, and gives its outcome.
    fn add(&mut self, label: String, case: Case) -> Outcome {
        let message = self.sheet.bytes(std::slice::from_ref(&case.message));
        let outcome = outcome(&case, &message);
        let arguments = vec![
            Argument::Number(case.set),
            Argument::Input(vec![Piece::Hex(case.secret)]),
            Argument::Input(vec![Piece::Hex(case.public)]),
            Argument::Input(vec![case.message]),
        ];
        self.sheet.add(Call::with_output(
            format!("seeds-{label}"),
            "picnic_seeds",
            arguments,
            case.output,
            outcome.clone(),
        ));
        outcome
    }

    /// Adds a call that is done.
    fn done(&mut self, kind: &str, set: &Set, message: usize, more: usize) {
        let case = self.case(set, message, more);
        let label = format!("{kind}-set{}-in{message}-more{more}", set.number);
        self.add(label, case).expect("nothing is wrong with it");
    }

    fn edges(&mut self, set: &Set) {
        for (i, message) in message_edges(set).into_iter().enumerate() {
            self.done("edge", set, message, MORE[i % MORE.len()]);
        }
    }

    fn random(&mut self, set: &Set) {
        for i in 0..RANDOM_CALLS {
            let message = self.noise.between(1, 2000);
            let more = i % 2 * self.noise.between(0, 100);
            self.done(&format!("random{i}"), set, message, more);
        }
    }

    /// The longest message, and an output that is longer by far.
    fn long(&mut self, set: &Set) {
        self.done("long", set, LONGEST_MESSAGE, 0);
        self.done("long", set, LONGEST_MESSAGE, 10);
        self.done("long", set, 7 * set.hash.rate() + 13, set.seeds_bytes());
    }

    fn refused(&mut self, set: &Set) {
        let first = set.number as usize;
        for choice in choices(&faults(), first) {
            let mut case = self.case(set, 40, 0);
            choice.spoil(&mut case);
            let label = format!("refused-set{}-{}", set.number, choice.label());
            let outcome = self.add(label, case);
            assert_eq!(outcome, Err(choice.refusal()), "{}", choice.label());
        }
    }
}

/// Lengths of messages: some short ones, and those at which what is hashed
/// up to the message's, the public key's or its own end is one byte less
/// than one or two blocks, just as long, or one byte more.
fn message_edges(set: &Set) -> BTreeSet<usize> {
    let (secret, public) = (set.width(), set.public_key_bytes());
    let mut lengths = BTreeSet::from([1, 2, 8, 33]);
    for others in [secret, secret + public, secret + public + 2] {
        for block in [set.hash.rate(), 2 * set.hash.rate()] {
            lengths.extend([block - 1, block, block + 1].map(|end| end - others));
        }
    }
    lengths
}

/// Something wrong with the arguments.
type Wrong = Fault<Case>;

/// All that can be wrong.
fn faults() -> Vec<Wrong> {
    let groups: [Vec<Wrong>; 4] = [
        within(no_sets(), |case: &mut Case| &mut case.set),
        within(other_lengths("secret", Refusal::Key), |case: &mut Case| {
            &mut case.secret
        }),
        within(other_lengths("public", Refusal::Key), |case: &mut Case| {
            &mut case.public
        }),
        vec![
            Wrong::new("secret-double", Refusal::Key, |case| {
                case.secret.resize(case.public.len(), 0);
            }),
            Wrong::new("public-half", Refusal::Key, |case| {
                case.public.truncate(case.secret.len());
            }),
            Wrong::new("message-empty", Refusal::Message, |case| {
                case.message = Piece::Hex(vec![]);
            }),
            Wrong::new("message-long", Refusal::Message, |case| {
                let length = LONGEST_MESSAGE + 1;
                case.message = Piece::Noise { seed: SEED, length };
            }),
            Wrong::new("output-short", Refusal::Room, |case| case.output -= 1),
            Wrong::new("output-empty", Refusal::Room, |case| case.output = 0),
        ],
    ];
    groups.into_iter().flatten().collect()
}

/// The file of calls.
pub fn sheet() -> Sheet {
    let mut maker = Maker::new(Function, SEED);
    for set in &SETS {
        maker.edges(set);
        maker.random(set);
        maker.long(set);
        maker.refused(set);
    }
    maker.sheet
}

#[cfg(test)]
mod tests {
    use super::*;
    use crate::calls::tests::check_outputs;

    fn good(set: &Set) -> Case {
        Case {
            set: set.number,
            secret: vec![1; set.width()],
            public: vec![2; set.public_key_bytes()],
            message: Piece::Zeros(1),
            output: set.seeds_bytes(),
        }
    }

    /// What a case is refused for after a change, if it is.
    fn refused(set: &Set, message: usize, change: impl Fn(&mut Case)) -> Option<Refusal> {
        let mut case = good(set);
        change(&mut case);
        outcome(&case, &vec![3; message]).err()
    }

    /// Each check where it begins to hold.
    #[test]
    fn what_is_refused() {
        for set in &SETS {
            assert_eq!(refused(set, 1, |_| ()), None);
            assert_eq!(refused(set, LONGEST_MESSAGE, |_| ()), None);
            assert_eq!(refused(set, 1, |case| case.output += 1), None);
            let no_set = refused(set, 1, |case| case.set += 3);
            assert_eq!(no_set, Some(Refusal::NoSet));
            for change in [-1, 1] {
                let other = |bytes: &mut Vec<u8>| {
                    bytes.resize(bytes.len().saturating_add_signed(change), 0);
                };
                let secret = refused(set, 1, |case| other(&mut case.secret));
                let public = refused(set, 1, |case| other(&mut case.public));
                assert_eq!((secret, public), (Some(Refusal::Key), Some(Refusal::Key)));
            }
            let empty = refused(set, 0, |_| ());
            let long = refused(set, LONGEST_MESSAGE + 1, |_| ());
            assert_eq!(empty, Some(Refusal::Message));
            assert_eq!(long, Some(Refusal::Message));
            let short = refused(set, 1, |case| case.output -= 1);
            assert_eq!(short, Some(Refusal::Room));
        }
    }

    /// 1 before 3 before 4 before 6.
    #[test]
    fn refusals_in_their_order() {
        for set in &SETS {
            let all = |case: &mut Case| {
                case.set = 4;
                case.secret.clear();
                case.output = 0;
            };
            assert_eq!(refused(set, 0, all), Some(Refusal::NoSet));
            let three = |case: &mut Case| {
                case.public.clear();
                case.output = 0;
            };
            assert_eq!(refused(set, 0, three), Some(Refusal::Key));
            let two = |case: &mut Case| case.output = 0;
            assert_eq!(refused(set, 0, two), Some(Refusal::Message));
            assert_eq!(refused(set, 1, two), Some(Refusal::Room));
        }
    }

    /// With set 1, 50 bytes beside the message are hashed.
    #[test]
    fn edges_lie_about_the_ends_of_blocks() {
        let edges: Vec<usize> = message_edges(&SETS[0]).into_iter().collect();
        let block_1 = [117, 118, 119, 120, 121, 151, 152, 153];
        assert_eq!(edges[..4], [1, 2, 8, 33]);
        assert_eq!(edges[4..12], block_1);
        assert_eq!(edges[12..], block_1.map(|length| length + 168));
    }

    /// How many calls there are of each kind, and how long the file is.
    #[test]
    fn the_sheet_has_all_its_calls() {
        let sheet = sheet();
        assert_eq!(sheet.count("seeds-edge-"), 3 * 20);
        assert_eq!(sheet.count("seeds-random"), 3 * RANDOM_CALLS);
        assert_eq!(sheet.count("seeds-long-"), 3 * 3);
        assert_eq!(sheet.count("seeds-refused-"), 3 * (18 + 11));
        assert_eq!(sheet.calls().len(), 216);
        assert!(sheet.to_string().len() < 8_000_000);
    }

    #[test]
    fn outputs_are_filled_as_far_as_needed_or_kept() {
        check_outputs(&sheet(), Set::seeds_bytes);
    }
}
