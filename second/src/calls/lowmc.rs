//! Calls of picnic_encrypt and of picnic_public_key.
//!
//! Both take a set number, the three tables, a secret key and a block. The one
//! writes the encryption of the block; the other writes the public key, which
//! is that encryption and then the block. Both refuse with 1, 2, 3 or 6.

use super::faults::{choices, no_sets, other_lengths, within, Fault};
use super::tables::{self, Contents, LentTables};
use super::{Argument, Call, Outcome, Piece, Sheet};
use crate::answers::Refusal;
use crate::known::{Source, KNOWN};
use crate::sets::{Set, SETS};

/// Where the choice of random tables, keys and blocks starts.
const SEED: u64 = 0x7069_636e_6963_0003;

/// Calls of random keys and blocks over the tables of a kind, for each set.
const RANDOM_CALLS: [(&str, usize); 4] =
    [("real", 80), ("noise1", 25), ("noise2", 25), ("zero", 2)];

/// Bytes that an output has beyond what is needed, in turn.
const MORE: [usize; 4] = [0, 1, 0, 40];

/// Which of the two functions is called.
#[derive(Clone, Copy, Debug, PartialEq, Eq)]
pub enum Function {
    /// picnic_encrypt.
    Encrypt,
    /// picnic_public_key.
    PublicKey,
}

impl Function {
    fn name(self) -> &'static str {
        match self {
            Function::Encrypt => "picnic_encrypt",
            Function::PublicKey => "picnic_public_key",
        }
    }

    /// Bytes that the call writes.
    fn needed(self, set: &Set) -> usize {
        match self {
            Function::Encrypt => set.width(),
            Function::PublicKey => set.public_key_bytes(),
        }
    }

    /// What the call writes.
    fn written(self, ciphertext: Vec<u8>, block: &[u8]) -> Vec<u8> {
        match self {
            Function::Encrypt => ciphertext,
            Function::PublicKey => [&ciphertext, block].concat(),
        }
    }
}

/// The arguments of a call.
struct Case {
    set: u64,
    tables: LentTables,
    secret: Vec<u8>,
    block: Vec<u8>,
    output: usize,
}

/// What the call must do.
fn outcome(function: Function, case: &Case) -> Outcome {
    let set = Set::by_number(case.set).ok_or(Refusal::NoSet)?;
    if !case.tables.fit(set) {
        return Err(Refusal::Table);
    }
    if case.secret.len() != set.width() || case.block.len() != set.width() {
        return Err(Refusal::Key);
    }
    if case.output < function.needed(set) {
        return Err(Refusal::Room);
    }
    let ciphertext = set
        .lowmc()
        .encrypt_by_words(&case.tables.tables(), &case.secret, &case.block);
    Ok(function.written(ciphertext, &case.block))
}

/// The calls of one of them.
type Maker = super::Maker<Function>;

impl Maker {
    /// Defines all tables of a set: those drawn by the rule, twice noise, and
    /// zeros.
    fn define_tables(&mut self, set: &Set) {
        let [noise1, noise2] = [(); 2].map(|()| Contents::noise(&mut self.noise));
        for (kind, contents) in [
            ("real", Contents::Real),
            ("noise1", noise1),
            ("noise2", noise2),
            ("zero", Contents::Zero),
        ] {
            LentTables::define(&mut self.sheet, kind, set, contents);
        }
    }

    /// A case over the tables of a kind, with an output that is longer than
    /// needed by `more`.
    fn case(&self, kind: &str, set: &Set, secret: Vec<u8>, block: Vec<u8>, more: usize) -> Case {
        Case {
            set: set.number,
            tables: LentTables::lend(&self.sheet, kind, set),
            secret,
            block,
            output: self.function.needed(set) + more,
        }
    }

    fn add(&mut self, label: String, case: Case, outcome: Outcome) {
        let mut arguments = vec![Argument::Number(case.set)];
        arguments.extend(case.tables.arguments(&self.sheet));
        arguments.push(Argument::Input(vec![Piece::Hex(case.secret)]));
        arguments.push(Argument::Input(vec![Piece::Hex(case.block)]));
        let function = self.function.name();
        self.sheet.add(Call::with_output(
            format!("{}-{label}", function.trim_start_matches("picnic_")),
            function,
            arguments,
            case.output,
            outcome,
        ));
    }

    /// Encryptions that are known from elsewhere: nothing is computed here.
    fn known(&mut self, set: &Set) {
        let of_set = |cipher| cipher == (set.n, set.s, set.r);
        for known in KNOWN.iter().filter(|known| of_set(known.cipher)) {
            let how = match known.source {
                Source::Published => "published",
                Source::Computed => "computed",
                Source::Recalled => "recalled",
            };
            let case = self.case("real", set, known.key(), known.block(), 0);
            let written = self.function.written(known.ciphertext(), &case.block);
            self.add(format!("{how}-set{}", set.number), case, Ok(written));
        }
    }

    /// Keys and blocks of zeros and of ones.
    fn edges(&mut self, set: &Set) {
        for (key, block) in [(0, 0), (0, 0xff), (0xff, 0), (0xff, 0xff)] {
            for kind in ["real", "noise1"] {
                let (key_bytes, block_bytes) = (vec![key; set.width()], vec![block; set.width()]);
                let case = self.case(kind, set, key_bytes, block_bytes, 0);
                let label = format!("{kind}-set{}-key{key:02x}-block{block:02x}", set.number);
                let outcome = outcome(self.function, &case);
                self.add(label, case, outcome);
            }
        }
    }

    fn random(&mut self, set: &Set) {
        for (kind, count) in RANDOM_CALLS {
            for i in 0..count {
                let secret = self.noise.bytes(set.width());
                let block = self.noise.bytes(set.width());
                let more = MORE[i % MORE.len()];
                let case = self.case(kind, set, secret, block, more);
                let label = format!("{kind}-set{}-random{i}-more{more}", set.number);
                let outcome = outcome(self.function, &case);
                self.add(label, case, outcome);
            }
        }
    }

    fn refused(&mut self, set: &Set) {
        for choice in choices(&faults(), set.number as usize) {
            let secret = self.noise.bytes(set.width());
            let block = self.noise.bytes(set.width());
            let mut case = self.case("real", set, secret, block, 0);
            choice.spoil(&mut case);
            let label = format!("refused-set{}-{}", set.number, choice.label());
            let outcome = outcome(self.function, &case);
            assert_eq!(outcome, Err(choice.refusal()), "{label}");
            self.add(label, case, outcome);
        }
    }
}

/// Something wrong with the arguments.
type Wrong = Fault<Case>;

/// All that can be wrong.
fn faults() -> Vec<Wrong> {
    let groups: [Vec<Wrong>; 5] = [
        within(no_sets(), |case: &mut Case| &mut case.set),
        within(tables::faults(), |case: &mut Case| &mut case.tables),
        within(other_lengths("secret", Refusal::Key), |case: &mut Case| {
            &mut case.secret
        }),
        within(other_lengths("block", Refusal::Key), |case: &mut Case| {
            &mut case.block
        }),
        vec![
            Wrong::new("output-short", Refusal::Room, |case| case.output -= 1),
            Wrong::new("output-half", Refusal::Room, |case| case.output /= 2),
            Wrong::new("output-empty", Refusal::Room, |case| case.output = 0),
        ],
    ];
    groups.into_iter().flatten().collect()
}

/// The file of calls of a function.
pub fn sheet(function: Function) -> Sheet {
    let mut maker = Maker::new(function, SEED);
    for set in &SETS {
        maker.define_tables(set);
        maker.known(set);
        maker.edges(set);
        maker.random(set);
        maker.refused(set);
    }
    maker.sheet
}

#[cfg(test)]
mod tests {
    use super::*;
    use crate::calls::tests::check_outputs;
    use crate::lowmc::Tables;
    use std::sync::OnceLock;

    const BOTH: [Function; 2] = [Function::Encrypt, Function::PublicKey];

    type Change = fn(&mut Case);

    /// The sheets of both functions, made once for all tests.
    fn sheets() -> &'static [Sheet; 2] {
        static SHEETS: OnceLock<[Sheet; 2]> = OnceLock::new();
        SHEETS.get_or_init(|| BOTH.map(sheet))
    }

    /// What a case is refused for after a change, if it is.
    fn refused(function: Function, set: &Set, change: impl Fn(&mut Case)) -> Option<Refusal> {
        let mut maker = Maker::new(function, 1);
        maker.define_tables(set);
        let (secret, block) = (vec![1; set.width()], vec![2; set.width()]);
        let mut case = maker.case("zero", set, secret, block, 0);
        change(&mut case);
        outcome(function, &case).err()
    }

    /// Each check where it begins to hold.
    #[test]
    fn what_is_refused() {
        use Refusal::{Key, NoSet, Room, Table};
        let changes: [(Change, Option<Refusal>); 16] = [
            (|_| (), None),
            (|case| case.output += 1, None),
            (|case| case.set += 3, Some(NoSet)),
            (|case| case.set = 0, Some(NoSet)),
            (|case| case.tables.keys.bytes.truncate(15), Some(Table)),
            (|case| case.tables.keys.bytes.push(0), Some(Table)),
            (|case| case.tables.layers.bytes.truncate(15), Some(Table)),
            (|case| case.tables.layers.bytes.push(0), Some(Table)),
            (|case| case.tables.constants.bytes.truncate(15), Some(Table)),
            (|case| case.tables.constants.bytes.push(0), Some(Table)),
            (|case| case.secret.truncate(15), Some(Key)),
            (|case| case.secret.push(0), Some(Key)),
            (|case| case.block.truncate(15), Some(Key)),
            (|case| case.block.push(0), Some(Key)),
            (|case| case.output -= 1, Some(Room)),
            (|case| case.output = 0, Some(Room)),
        ];
        for function in BOTH {
            for (i, (change, expected)) in changes.iter().enumerate() {
                let got = refused(function, &SETS[0], change);
                assert_eq!(got, *expected, "{function:?}, change {i}");
            }
        }
    }

    /// 1 before 2 before 3 before 6.
    #[test]
    fn refusals_in_their_order() {
        let order = [Refusal::NoSet, Refusal::Table, Refusal::Key, Refusal::Room];
        let faults: [Change; 4] = [
            |case| case.set = 4,
            |case| case.tables.constants.bytes.clear(),
            |case| case.block.clear(),
            |case| case.output = 0,
        ];
        for function in BOTH {
            for (first, expected) in order.into_iter().enumerate() {
                let spoil = |case: &mut Case| faults[first..].iter().for_each(|f| f(case));
                assert_eq!(refused(function, &SETS[1], spoil), Some(expected));
            }
        }
    }

    /// How many calls there are of each kind, and how long the file is.
    #[test]
    fn the_sheets_have_all_their_calls() {
        for (sheet, name) in sheets().iter().zip(["encrypt", "public_key"]) {
            let count = |kind: &str| sheet.count(&format!("{name}-{kind}"));
            assert_eq!(count("published-"), 3);
            assert_eq!(count("recalled-"), 3);
            assert_eq!(count("real-"), 3 * (4 + 80));
            assert_eq!(count("noise1-"), 3 * (4 + 25));
            assert_eq!(count("noise2-"), 3 * 25);
            assert_eq!(count("zero-"), 3 * 2);
            assert_eq!(count("refused-"), 3 * (25 + 11));
            assert_eq!(sheet.calls().len(), 534);
            assert!(sheet.to_string().len() < 2_500_000);
        }
    }

    #[test]
    fn outputs_are_filled_as_far_as_needed_or_kept() {
        for (sheet, function) in sheets().iter().zip(BOTH) {
            check_outputs(sheet, |set| function.needed(set));
        }
    }

    /// What a call writes is what the encryption bit by bit gives, then the
    /// block for a public key.
    #[test]
    fn ciphertexts_are_those_of_the_plain_encryption() {
        let [_, sheet] = sheets();
        for call in sheet.calls().iter().filter(|call| call.answer >> 32 == 0) {
            let (set, _, written) = sheet.ends(call);
            let input = |i: usize| match &call.arguments[i] {
                Argument::Input(pieces) => sheet.bytes(pieces),
                _ => panic!("{}: argument {i} is no input", call.label),
            };
            let tables = Tables {
                keys: input(1),
                layers: input(2),
                constants: input(3),
            };
            let cipher = Set::by_number(set).unwrap().lowmc();
            let ciphertext = cipher.encrypt(&tables, &input(4), &input(5));
            assert_eq!(written, [ciphertext, input(5)].concat(), "{}", call.label);
        }
    }

    /// Both functions are called with the same arguments but for the output,
    /// and an encryption is the first half of a public key.
    #[test]
    fn encryptions_are_halves_of_public_keys() {
        let [encrypt, public_key] = sheets();
        for (half, whole) in encrypt.calls().iter().zip(public_key.calls()) {
            assert_eq!(half.arguments[..6], whole.arguments[..6]);
            let (_, _, ciphertext) = encrypt.ends(half);
            let (_, _, both) = public_key.ends(whole);
            assert_eq!(ciphertext, both[..both.len() / 2], "{}", half.label);
        }
    }
}
