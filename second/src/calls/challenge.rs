//! Calls of picnic_challenge.
//!
//! The call takes a set number, an input of any length and a block limit, and
//! writes the T values of the challenge, one a byte. It refuses with 1, 5, 6
//! or 8.

use super::faults::{choices, no_sets, within, Fault};
use super::{random_piece, Argument, Call, Outcome, Piece, Sheet};
use crate::answers::Refusal;
use crate::challenge::challenge;
use crate::sets::{Set, HIGHEST_BLOCK_LIMIT, SETS};

/// Where the choice of random lengths and inputs starts.
const SEED: u64 = 0x7069_636e_6963_0005;

/// Limits that are legal or not, besides those from 0 to 65.
const FAR_LIMITS: [u64; 4] = [1 << 32, (1 << 32) + 4, 1 << 63, u64::MAX];

/// The arguments of a call.
struct Case {
    set: u64,
    input: Piece,
    limit: u64,
    output: usize,
}

/// What the call must do.
fn outcome(case: &Case, input: &[u8]) -> Outcome {
    let set = Set::by_number(case.set).ok_or(Refusal::NoSet)?;
    if case.limit == 0 || case.limit > HIGHEST_BLOCK_LIMIT as u64 {
        return Err(Refusal::Limit);
    }
    if case.output < set.t {
        return Err(Refusal::Room);
    }
    challenge(set, input, case.limit).ok_or(Refusal::Blocks)
}

/// picnic_challenge.
struct Function;

/// The calls of it.
type Maker = super::Maker<Function>;

impl Maker {
    /// A case with an input of this length.
    fn case(&mut self, set: &Set, input: usize, limit: u64, output: usize) -> Case {
        Case {
            set: set.number,
            input: random_piece(&mut self.noise, input),
            limit,
            output,
        }
    }

    /// Adds the call of a case, and gives its outcome.
    fn add(&mut self, label: String, case: Case) -> Outcome {
        let input = self.sheet.bytes(std::slice::from_ref(&case.input));
        let outcome = outcome(&case, &input);
        let arguments = vec![
            Argument::Number(case.set),
            Argument::Input(vec![case.input]),
            Argument::Number(case.limit),
        ];
        self.sheet.add(Call::with_output(
            format!("challenge-{label}"),
            "picnic_challenge",
            arguments,
            case.output,
            outcome.clone(),
        ));
        outcome
    }

    /// Every limit from 0 to 65 and some far ones, outputs of T and T+1 bytes.
    fn limits(&mut self, set: &Set) {
        for limit in (0..=65).chain(FAR_LIMITS) {
            let case = self.case(set, 40, limit, set.t + limit as usize % 2);
            self.add(format!("limit{limit}-set{}", set.number), case)
                .ok();
        }
    }

    /// Inputs around the rate, outputs that are longer by far.
    fn inputs(&mut self, set: &Set) {
        let rate = set.hash.rate();
        for input in [
            0,
            1,
            rate - 2,
            rate - 1,
            rate,
            rate + 1,
            2 * rate,
            5000,
            300_000,
        ] {
            let case = self.case(set, input, 64, set.t + 100);
            self.add(format!("in{input}-set{}", set.number), case)
                .expect("64 blocks are enough");
        }
    }

    fn refused(&mut self, set: &Set) {
        for choice in choices(&faults(), set.number as usize) {
            let mut case = self.case(set, 40, 64, set.t);
            choice.spoil(&mut case);
            let label = format!("refused-set{}-{}", set.number, choice.label());
            let outcome = self.add(label, case);
            assert_eq!(outcome, Err(choice.refusal()), "{}", choice.label());
        }
    }
}

/// All that can be wrong.
fn faults() -> Vec<Fault<Case>> {
    let mut faults = within(no_sets(), |case: &mut Case| &mut case.set);
    faults.extend([
        Fault::new("limit-none", Refusal::Limit, |case: &mut Case| {
            case.limit = 0
        }),
        Fault::new("limit-high", Refusal::Limit, |case: &mut Case| {
            case.limit = 65
        }),
        Fault::new("output-short", Refusal::Room, |case: &mut Case| {
            case.output -= 1
        }),
        Fault::new("output-empty", Refusal::Room, |case: &mut Case| {
            case.output = 0
        }),
    ]);
    faults
}

/// The file of calls.
pub fn sheet() -> Sheet {
    let mut maker = Maker::new(Function, SEED);
    for set in &SETS {
        maker.limits(set);
        maker.inputs(set);
        maker.refused(set);
    }
    maker.sheet
}

#[cfg(test)]
mod tests {
    use super::*;

    /// Each check where it begins to hold.
    #[test]
    fn what_is_refused() {
        for set in &SETS {
            let refused = |limit, output| {
                let input = Piece::Zeros(1);
                let case = Case {
                    set: set.number,
                    input,
                    limit,
                    output,
                };
                outcome(&case, &[0]).err()
            };
            assert_eq!(refused(64, set.t), None);
            assert_eq!(refused(0, set.t), Some(Refusal::Limit));
            assert_eq!(refused(65, set.t), Some(Refusal::Limit));
            assert_eq!(refused(64, set.t - 1), Some(Refusal::Room));
            assert_eq!(refused(1, set.t), Some(Refusal::Blocks));
            assert_eq!(refused(0, set.t - 1), Some(Refusal::Limit));
        }
    }
}
