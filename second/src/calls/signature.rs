//! Calls of picnic_read and of picnic_write.
//!
//! Both take a set number and a byte string: the one a signature, whose
//! unpacked form it writes, the other an unpacked form, whose signature it
//! writes. Reading refuses with 1, 6, 9 for a string shorter than header and
//! salt, 10, 9 for the full length, or 11; writing with 1, 6, 9, 10 or 11.

use super::faults::{choices, no_sets, within, Fault};
use super::strings::{
    damaged_forms, damaged_signatures, form_faults, of_noise, other_form_lengths,
    other_signature_lengths, signature_faults, Change,
};
use super::{Argument, Call, Lent, Outcome, Piece, Sheet};
use crate::answers::Refusal;
use crate::noise::Noise;
use crate::sets::{Set, SETS};
use crate::signature::Signature;

/// Where the choice of random values and bytes starts.
const SEED: u64 = 0x7069_636e_6963_0006;

/// Bytes that an output has beyond what is needed, in turn.
const MORE: [usize; 4] = [0, 1, 0, 100];

/// Which of the two functions is called.
#[derive(Clone, Copy, Debug, PartialEq, Eq)]
pub enum Function {
    /// picnic_read.
    Read,
    /// picnic_write.
    Write,
}

impl Function {
    fn name(self) -> &'static str {
        match self {
            Function::Read => "picnic_read",
            Function::Write => "picnic_write",
        }
    }

    /// Bytes that the output must have.
    pub fn needed(self, set: &Set) -> usize {
        match self {
            Function::Read => set.unpacked_bytes(),
            Function::Write => set.longest_signature(),
        }
    }

    /// What the call writes for a string that it is given.
    fn written(self, set: &Set, bytes: &[u8]) -> Outcome {
        match self {
            Function::Read => Ok(Signature::read(set, bytes)?.unpacked(set)),
            Function::Write => Ok(Signature::read_unpacked(set, bytes)?.bytes()),
        }
    }

    /// The names of the strings of a mix that are given and written.
    fn strings(self, mix: &str, set: &Set) -> [String; 2] {
        let names = ["signature", "unpacked"].map(|what| format!("{what}-{mix}-{}", set.number));
        let [signature, unpacked] = names;
        match self {
            Function::Read => [signature, unpacked],
            Function::Write => [unpacked, signature],
        }
    }
}

/// Mixes of values, of which each set has a signature of noise: all are 0, one
/// is not, all are 2, each is any.
const MIXES: [&str; 5] = ["zeros", "one", "twos", "random", "other"];

/// The mixes whose strings are also cut and lengthened.
const CUT: [&str; 3] = ["zeros", "one", "random"];

fn values(mix: &str, set: &Set, noise: &mut Noise) -> Vec<u8> {
    let mut values = vec![0; set.t];
    match mix {
        "zeros" => (),
        "one" => values[noise.between(0, set.t - 1)] = 1,
        "twos" => values.fill(2),
        _ => values.fill_with(|| noise.between(0, 2) as u8),
    }
    values
}

/// The arguments of a call.
pub struct Case {
    /// The number of the set.
    pub set: u64,
    /// The string.
    pub given: Lent,
    /// The length of the output.
    pub output: usize,
    /// The defined string that what is written is held against.
    pub written: String,
}

/// What the call must do.
fn outcome(function: Function, case: &Case) -> Outcome {
    let set = Set::by_number(case.set).ok_or(Refusal::NoSet)?;
    if case.output < function.needed(set) {
        return Err(Refusal::Room);
    }
    function.written(set, &case.given.bytes)
}

/// The calls of one of them.
type Maker = super::Maker<Function>;

impl Maker {
    /// Defines a signature of noise and its unpacked form, and gives its
    /// values.
    fn define(&mut self, mix: &str, set: &Set) -> Vec<u8> {
        let values = values(mix, set, &mut self.noise);
        let signature = of_noise(set, values, &mut self.noise);
        let [packed, unpacked] = Function::Read.strings(mix, set);
        let strings = [
            (packed, signature.bytes()),
            (unpacked, signature.unpacked(set)),
        ];
        for (name, bytes) in strings {
            self.sheet.define(&name, vec![Piece::Hex(bytes)]);
        }
        signature.values
    }

    /// A case with the string of a mix, and an output that is longer than
    /// needed by `more`.
    fn case(&self, mix: &str, set: &Set, more: usize) -> Case {
        let [given, written] = self.function.strings(mix, set);
        Case {
            set: set.number,
            given: self.sheet.lend(&given),
            output: self.function.needed(set) + more,
            written,
        }
    }

    /// Adds the call of a case, and gives its outcome.
    fn add(&mut self, label: String, case: Case) -> Outcome {
        add(&mut self.sheet, self.function, label, case)
    }

    /// What is not damaged, with outputs of just the needed length and longer.
    fn done(&mut self, mix: &str, set: &Set) {
        for more in [0, 1, 100] {
            let case = self.case(mix, set, more);
            let label = format!("{mix}-set{}-more{more}", set.number);
            self.add(label, case).expect("nothing is wrong with it");
        }
    }

    fn changed(&mut self, mix: &str, set: &Set, changes: Vec<Change>) {
        for (i, (name, change)) in changes.into_iter().enumerate() {
            let mut case = self.case(mix, set, MORE[i % MORE.len()]);
            change(&mut case.given.bytes);
            self.add(format!("{mix}-set{}-{name}", set.number), case)
                .ok();
        }
    }

    /// The string as that of another set.
    fn other_sets(&mut self, mix: &str, set: &Set) {
        for other in SETS.iter().filter(|other| *other != set) {
            let mut case = self.case(mix, set, 0);
            (case.set, case.output) = (other.number, self.function.needed(other));
            let label = format!("{mix}-set{}-as{}", set.number, other.number);
            self.add(label, case)
                .expect_err("sets differ in their lengths");
        }
    }

    fn refused(&mut self, set: &Set, values: &[u8]) {
        for choice in choices(&faults(self.function, set, values), set.number as usize) {
            let mut case = self.case("random", set, 0);
            choice.spoil(&mut case);
            let label = format!("refused-set{}-{}", set.number, choice.label());
            let outcome = self.add(label, case);
            assert_eq!(outcome, Err(choice.refusal()), "{}", choice.label());
        }
    }

    /// A string of zeros of this length with one other byte, and the refusal
    /// that 01 gives for it, if any.
    fn example(&mut self, set: &Set, length: usize, at: (usize, u8), expected: Option<Refusal>) {
        let name = format!("nothing-{}", set.number);
        let mut bytes = vec![0; length];
        if let Some(byte) = bytes.get_mut(at.0) {
            *byte = at.1;
        }
        let case = Case {
            set: set.number,
            given: Lent {
                name: name.clone(),
                bytes,
            },
            output: self.function.needed(set),
            written: name,
        };
        let label = format!("example-set{}-{length}-{at:?}", set.number);
        let outcome = self.add(label.replace(' ', ""), case);
        assert_eq!(outcome.err(), expected, "{length}, {at:?}");
    }

    /// The examples that 01 gives with their numbers, and in the unpacked form
    /// what they come from.
    fn examples(&mut self) {
        use Refusal::{Header, Padding, WrongLength};
        for set in &SETS {
            let zeros = vec![Piece::Zeros(set.unpacked_bytes())];
            self.sheet.define(&format!("nothing-{}", set.number), zeros);
        }
        let [first, second, _] = &SETS;
        match self.function {
            Function::Read => {
                self.example(first, 30_528, (54, 0x00), None);
                self.example(first, 30_544, (54, 0x04), None);
                self.example(first, 30_544, (54, 0x01), Some(Header));
                self.example(first, 30_544, (54, 0x0c), Some(Header));
                self.example(first, 30_528, (54, 0x04), Some(WrongLength));
                self.example(first, 30_527, (54, 0x00), Some(WrongLength));
                self.example(first, 0, (0, 0x00), Some(WrongLength));
                let last = 83 + 32 + 328 * (48 + 113 + 48) + 48 + 112;
                let least = second.signature_bytes(&[0; 329]);
                self.example(second, least, (last, 0x10), None);
                self.example(second, least, (last, 0x01), Some(Padding));
            }
            Function::Write => {
                self.example(first, 34_196, (218, 0), None);
                self.example(first, 34_196, (218, 1), None);
                self.example(first, 34_196, (218, 3), Some(Header));
                self.example(first, 34_195, (218, 0), Some(WrongLength));
                let share = 34_196 - 16;
                self.example(first, 34_196, (share, 1), Some(Padding));
                let last = 77_018 - 24 - 48 - 1;
                self.example(second, 77_018, (last, 0x10), None);
                self.example(second, 77_018, (last, 0x08), Some(Padding));
            }
        }
    }

    fn set(&mut self, set: &Set) {
        for mix in MIXES {
            let values = self.define(mix, set);
            self.done(mix, set);
            self.other_sets(mix, set);
            let (damages, lengths) = match self.function {
                Function::Read => (
                    damaged_signatures(set, &values),
                    other_signature_lengths(set, &values),
                ),
                Function::Write => (
                    damaged_forms(set, &values),
                    other_form_lengths(set, &values),
                ),
            };
            self.changed(mix, set, damages);
            if CUT.contains(&mix) {
                self.changed(mix, set, lengths);
            }
            if mix == "random" {
                self.refused(set, &values);
            }
        }
    }
}

/// Adds the call of a case to a sheet, and gives its outcome.
pub fn add(sheet: &mut Sheet, function: Function, label: String, case: Case) -> Outcome {
    let outcome = outcome(function, &case);
    let arguments = vec![Argument::Number(case.set), sheet.input(&case.given)];
    let name = case.written;
    let pieces = |bytes| sheet.pieces(&Lent { name, bytes });
    let call = Call::with_pieces(
        format!("{}-{label}", function.name().trim_start_matches("picnic_")),
        function.name(),
        arguments,
        case.output,
        outcome.clone(),
        pieces,
    );
    sheet.add(call);
    outcome
}

/// Something wrong with the arguments.
type Wrong = Fault<Case>;

/// All that can be wrong.
fn faults(function: Function, set: &Set, values: &[u8]) -> Vec<Wrong> {
    let mut faults = within(no_sets(), |case: &mut Case| &mut case.set);
    faults.extend([
        Wrong::new("output-short", Refusal::Room, |case| case.output -= 1),
        Wrong::new("output-empty", Refusal::Room, |case| case.output = 0),
    ]);
    let given = match function {
        Function::Read => signature_faults(set, values),
        Function::Write => form_faults(set, values),
    };
    faults.extend(within(given, |case: &mut Case| &mut case.given.bytes));
    faults
}

/// The file of calls of a function.
pub fn sheet(function: Function) -> Sheet {
    let mut maker = Maker::new(function, SEED);
    maker.examples();
    for set in &SETS {
        maker.set(set);
    }
    maker.sheet
}

#[cfg(test)]
mod tests {
    use super::*;
    use std::sync::OnceLock;

    const BOTH: [Function; 2] = [Function::Read, Function::Write];

    /// The sheets of both functions, made once for all tests.
    fn sheets() -> &'static [Sheet; 2] {
        static SHEETS: OnceLock<[Sheet; 2]> = OnceLock::new();
        SHEETS.get_or_init(|| BOTH.map(sheet))
    }

    /// How many calls end in each refusal, by its number, over all sets.
    fn count(sheet: &Sheet) -> [usize; 13] {
        let mut counts = [0; 13];
        for call in sheet.calls() {
            counts[(call.answer >> 32) as usize] += 1;
        }
        counts
    }

    /// There are many calls of each outcome and none of others, and the files
    /// are not long.
    #[test]
    fn the_sheets_have_calls_of_every_outcome() {
        let [read, write] = sheets().each_ref().map(count);
        for counts in [read, write] {
            for refusal in [0, 1, 6, 9, 10, 11] {
                assert!(counts[refusal] >= 20, "{refusal}: {}", counts[refusal]);
            }
            assert!(counts[0] >= 200 && counts[9] >= 40);
            assert_eq!(counts[2..6], [0; 4]);
            assert_eq!([counts[7], counts[8], counts[12]], [0; 3]);
        }
        for sheet in sheets() {
            assert!(sheet.calls().len() >= 500);
            assert!(sheet.to_string().len() < 12_000_000);
        }
    }

    /// A done call writes what the other function gives back as the string
    /// that it was given; a refused one keeps its output.
    #[test]
    fn each_undoes_the_other() {
        for (sheet, other) in sheets().iter().zip([Function::Write, Function::Read]) {
            for call in sheet.calls() {
                let (set, _, written) = sheet.ends(call);
                assert_eq!(call.answer & 0xffff_ffff, written.len() as u64);
                if call.answer >> 32 != 0 {
                    assert!(written.is_empty(), "{}", call.label);
                    continue;
                }
                let Argument::Input(given) = &call.arguments[1] else {
                    panic!("{}: no input", call.label);
                };
                let set = Set::by_number(set).expect("no set is refused");
                let back = other.written(set, &written);
                assert_eq!(back, Ok(sheet.bytes(given)), "{}", call.label);
            }
        }
    }

    /// A signature of set 1 whose values are all 0 has 30,528 bytes, and one
    /// with one value that is not 0 has 30,544.
    #[test]
    fn lengths_of_01() {
        let [_, write] = sheets();
        let answer = |label: &str| {
            let mut calls = write.calls().iter();
            let found = calls.find(|call| call.label == label);
            found.expect("there is such a call").answer
        };
        assert_eq!(answer("write-zeros-set1-more0"), 30_528);
        assert_eq!(answer("write-one-set1-more0"), 30_544);
        assert_eq!(answer("write-twos-set1-more0"), 34_032);
        assert_eq!(answer("write-example-set1-34196-(218,0)"), 30_528);
        assert_eq!(answer("write-example-set1-34196-(218,1)"), 30_544);
    }
}
