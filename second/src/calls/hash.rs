//! Calls of picnic_hash.
//!
//! Hashing takes a set number, for its SHAKE, adds no prefix and fills its
//! whole output. It refuses with 1 or 6 alone.

use super::{random_piece, Argument, Call, Outcome, Sheet, NO_SETS};
use crate::answers::Refusal;
use crate::sets::{Set, LONGEST_HASH_OUTPUT, SETS};
use crate::shake::shake;

/// Where the choice of random lengths and inputs starts.
const SEED: u64 = 0x7069_636e_6963_0001;

/// Calls of random lengths for each set.
const RANDOM_CALLS: usize = 40;

/// What the call must do.
fn outcome(set: u64, input: &[u8], length: usize) -> Outcome {
    let set = Set::by_number(set).ok_or(Refusal::NoSet)?;
    if length > LONGEST_HASH_OUTPUT {
        return Err(Refusal::Room);
    }
    Ok(shake(set.hash, input, length))
}

/// picnic_hash.
struct Function;

/// The calls of it.
type Maker = super::Maker<Function>;

impl Maker {
    /// Adds a call with an input of this length, and its outcome.
    fn add(&mut self, kind: &str, set: u64, input: usize, output: usize) {
        let piece = random_piece(&mut self.noise, input);
        let bytes = self.sheet.bytes(std::slice::from_ref(&piece));
        self.sheet.add(Call::with_output(
            format!("hash-{kind}-set{set}-in{input}-out{output}"),
            "picnic_hash",
            vec![Argument::Number(set), Argument::Input(vec![piece])],
            output,
            outcome(set, &bytes, output),
        ));
    }

    /// Lengths at which a block of input or of output is not yet, just, and
    /// more than full, each with each.
    fn edges(&mut self, set: &Set) {
        for input in input_edges(set.hash.rate()) {
            for output in output_edges(set.hash.rate()) {
                self.add("edge", set.number, input, output);
            }
        }
    }

    fn random(&mut self, set: &Set) {
        for i in 0..RANDOM_CALLS {
            let input = self.noise.between(0, 2000);
            let output = self.noise.between(0, 1000);
            self.add(&format!("random{i}"), set.number, input, output);
        }
    }

    /// The longest output; inputs of many blocks, for which there is no limit.
    fn long(&mut self, set: &Set) {
        let many = 100 * set.hash.rate();
        self.add("long", set.number, 33, LONGEST_HASH_OUTPUT);
        self.add("long", set.number, many - 1, 32);
        self.add("long", set.number, many, 32);
        self.add("long", set.number, LONGEST_HASH_OUTPUT + 1, 64);
    }

    fn refused(&mut self) {
        for set in NO_SETS {
            for output in [0, 32, LONGEST_HASH_OUTPUT + 1] {
                self.add("no-set", set, 10, output);
            }
        }
        for set in &SETS {
            for output in [LONGEST_HASH_OUTPUT + 1, 2 * LONGEST_HASH_OUTPUT] {
                self.add("too-long", set.number, 0, output);
                self.add("too-long", set.number, 200, output);
            }
        }
    }
}

fn input_edges(rate: usize) -> [usize; 10] {
    [
        0,
        1,
        8,
        rate - 1,
        rate,
        rate + 1,
        2 * rate - 1,
        2 * rate,
        2 * rate + 1,
        7 * rate + 13,
    ]
}

fn output_edges(rate: usize) -> [usize; 11] {
    [
        0,
        1,
        31,
        32,
        rate - 1,
        rate,
        rate + 1,
        2 * rate - 1,
        2 * rate,
        2 * rate + 1,
        5 * rate + 3,
    ]
}

/// The file of calls.
pub fn sheet() -> Sheet {
    let mut maker = Maker::new(Function, SEED);
    for set in &SETS {
        maker.edges(set);
        maker.random(set);
        maker.long(set);
    }
    maker.refused();
    maker.sheet
}

#[cfg(test)]
mod tests {
    use super::*;
    use crate::hex::to_hex;

    /// The first check that holds is answered: 1 before 6.
    #[test]
    fn refusals_in_their_order() {
        let longest = LONGEST_HASH_OUTPUT;
        for set in NO_SETS {
            assert_eq!(outcome(set, b"x", 32), Err(Refusal::NoSet), "{set}");
            assert_eq!(outcome(set, b"x", longest + 1), Err(Refusal::NoSet));
        }
        for set in 1..=3 {
            assert_eq!(outcome(set, b"x", longest + 1), Err(Refusal::Room));
            assert_eq!(outcome(set, b"x", longest).map(|o| o.len()), Ok(longest));
        }
    }

    #[test]
    fn the_sets_hash_is_taken_without_a_prefix() {
        let start = |set| outcome(set, b"", 4).map(|output| to_hex(&output));
        assert_eq!(start(1), Ok("7f9c2ba4".into()));
        assert_eq!(start(2), Ok("46b9dd2b".into()));
        assert_eq!(start(3), Ok("46b9dd2b".into()));
    }

    /// How many calls there are of each kind, and how long the file is.
    #[test]
    fn the_sheet_has_all_its_calls() {
        let sheet = sheet();
        let count = |kind: &str| {
            let start = format!("hash-{kind}");
            let calls = sheet.calls().iter();
            calls.filter(|call| call.label.starts_with(&start)).count()
        };
        assert_eq!(count("edge-"), 3 * 10 * 11);
        assert_eq!(count("random"), 3 * RANDOM_CALLS);
        assert_eq!(count("long-"), 3 * 4);
        assert_eq!(count("no-set-"), 6 * 3);
        assert_eq!(count("too-long-"), 3 * 2 * 2);
        assert_eq!(sheet.calls().len(), 492);
        assert!(sheet.to_string().len() < 12_000_000);
    }

    /// A refused call keeps its output; any other fills it.
    #[test]
    fn outputs_are_filled_or_kept() {
        let sheet = sheet();
        for call in sheet.calls() {
            let Some(Argument::Written { length, start }) = call.arguments.last() else {
                panic!("{}: no output", call.label);
            };
            let filled = sheet.bytes(start).len();
            let expected = if call.answer >> 32 == 0 { *length } else { 0 };
            assert_eq!(filled, expected, "{}", call.label);
            assert_eq!(call.answer & 0xffff_ffff, filled as u64, "{}", call.label);
        }
    }
}
