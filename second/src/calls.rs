//! Files of calls: which calls of the library a C host is to make, and what
//! each must answer and write. `hosts/README.md` describes the format; this
//! module writes it, and each module below it chooses the cases of one call.

pub mod challenge;
pub mod damaged;
pub mod faults;
pub mod fuzz;
pub mod hash;
pub mod lowmc;
pub mod published;
pub mod seeds;
pub mod sign;
pub mod signature;
pub mod statement;
pub mod strings;
pub mod tables;
pub mod verify;

use std::collections::BTreeSet;
use std::fmt;

use crate::answers::{done, Refusal};
use crate::hex::to_hex;
use crate::noise::Noise;

/// The file of calls of a function, which is named without the library's
/// prefix; or the file of many damaged signatures.
pub fn of(function: &str) -> Option<Sheet> {
    match function {
        "hash" => Some(hash::sheet()),
        "encrypt" => Some(lowmc::sheet(lowmc::Function::Encrypt)),
        "public_key" => Some(lowmc::sheet(lowmc::Function::PublicKey)),
        "seeds" => Some(seeds::sheet()),
        "challenge" => Some(challenge::sheet()),
        "read" => Some(signature::sheet(signature::Function::Read)),
        "write" => Some(signature::sheet(signature::Function::Write)),
        "sign" => Some(sign::sheet()),
        "verify" => Some(verify::sheet()),
        "damaged" => Some(damaged::sheet(damaged::DAMAGED)),
        _ => None,
    }
}

/// Set numbers that name no set. Taken for fewer bits, some would.
const NO_SETS: [u64; 6] = [0, 4, 257, (1 << 32) + 1, (1 << 63) + 2, u64::MAX];

/// The longest random input that is written in full and not as noise, and the
/// longest run of bytes that are not worth a piece of their own.
const SHORT: usize = 32;

/// A random input of this length.
fn random_piece(noise: &mut Noise, length: usize) -> Piece {
    if length <= SHORT {
        return Piece::Hex(noise.bytes(length));
    }
    let seed = noise.number();
    Piece::Noise { seed, length }
}

/// A piece of a byte string.
#[derive(Clone, Debug, PartialEq, Eq)]
pub enum Piece {
    /// These bytes.
    Hex(Vec<u8>),
    /// So many zero bytes.
    Zeros(usize),
    /// The first bytes that follow from a seed.
    Noise {
        /// Where the noise starts.
        seed: u64,
        /// How many bytes are taken.
        length: usize,
    },
    /// A whole defined byte string.
    Named(String),
    /// A part of a defined byte string.
    Part {
        /// The string's name.
        name: String,
        /// Where in it the part starts.
        from: usize,
        /// How many bytes it has.
        length: usize,
    },
}

/// An argument of a call.
#[derive(Clone, Debug, PartialEq, Eq)]
pub enum Argument {
    /// A number.
    Number(u64),
    /// A slice that the call only reads.
    Input(Vec<Piece>),
    /// A slice that the call may write: how long it is, and what stands at
    /// its start afterwards. The rest is as it was.
    Written {
        /// The length of the slice.
        length: usize,
        /// What stands at its start.
        start: Vec<Piece>,
    },
}

/// A byte string that a call is given, beside the defined string that it was
/// made from: the file says only where the two differ.
#[derive(Clone, Debug, PartialEq, Eq)]
pub struct Lent {
    name: String,
    /// The bytes.
    pub bytes: Vec<u8>,
}

/// A call and its answer.
#[derive(Clone, Debug, PartialEq, Eq)]
pub struct Call {
    /// The name by which a failure is reported.
    pub label: String,
    /// The name of the function.
    pub function: &'static str,
    /// The arguments in order; a slice is one argument.
    pub arguments: Vec<Argument>,
    /// What the call must answer.
    pub answer: u64,
}

/// What a call with one output must do: write these bytes at the start of the
/// output, or refuse and keep it.
pub type Outcome = Result<Vec<u8>, Refusal>;

impl Call {
    /// A call whose last argument is its one output.
    pub fn with_output(
        label: String,
        function: &'static str,
        arguments: Vec<Argument>,
        length: usize,
        outcome: Outcome,
    ) -> Call {
        let hex = |bytes: Vec<u8>| vec![Piece::Hex(bytes)];
        Call::with_pieces(label, function, arguments, length, outcome, hex)
    }

    /// A call whose last argument is its one output, with the pieces that the
    /// file has for what is written.
    pub fn with_pieces(
        label: String,
        function: &'static str,
        mut arguments: Vec<Argument>,
        length: usize,
        outcome: Outcome,
        pieces: impl FnOnce(Vec<u8>) -> Vec<Piece>,
    ) -> Call {
        let answer = answer(&outcome);
        let start = outcome.map_or_else(|_| vec![], pieces);
        arguments.push(Argument::Written { length, start });
        Call {
            label,
            function,
            arguments,
            answer,
        }
    }
}

/// The answer of a call with one output.
pub fn answer(outcome: &Outcome) -> u64 {
    match outcome {
        Ok(bytes) => done(bytes.len()),
        Err(refusal) => refusal.answer(),
    }
}

/// A byte string with a name.
struct Defined {
    name: String,
    pieces: Vec<Piece>,
    bytes: Vec<u8>,
}

/// A file of calls.
#[derive(Default)]
pub struct Sheet {
    defined: Vec<Defined>,
    calls: Vec<Call>,
    labels: BTreeSet<String>,
}

impl Sheet {
    /// Gives a name to a byte string that many calls use.
    pub fn define(&mut self, name: &str, pieces: Vec<Piece>) -> Piece {
        assert!(is_word(name) && !name.contains(':'), "{name:?} is no name");
        assert!(self.named(name).is_none(), "{name} is defined twice");
        let bytes = self.bytes(&pieces);
        self.defined.push(Defined {
            name: name.into(),
            pieces,
            bytes,
        });
        Piece::Named(name.into())
    }

    /// How many names there are.
    pub fn names(&self) -> usize {
        self.defined.len()
    }

    /// The bytes of this name.
    fn named(&self, name: &str) -> Option<&[u8]> {
        let found = self.defined.iter().find(|defined| defined.name == name);
        found.map(|defined| defined.bytes.as_slice())
    }

    /// A copy of a defined string, to be changed.
    pub fn lend(&self, name: &str) -> Lent {
        let bytes = self.named(name).expect("the name is defined");
        Lent {
            name: name.into(),
            bytes: bytes.into(),
        }
    }

    /// What a lent string is made of: the defined string, or parts of it where
    /// the two agree for long enough, and hex where they do not.
    pub fn pieces(&self, lent: &Lent) -> Vec<Piece> {
        let whole = self.named(&lent.name).expect("the name is defined");
        let (name, bytes) = (&lent.name, &lent.bytes);
        if bytes == whole {
            return vec![Piece::Named(name.clone())];
        }
        let (mut pieces, mut other, mut from) = (vec![], vec![], 0);
        while from < bytes.len() {
            let pairs = bytes[from..].iter().zip(whole.iter().skip(from));
            let length = pairs.take_while(|(x, y)| x == y).count();
            if length < SHORT {
                let end = bytes.len().min(from + length + 1);
                other.extend(&bytes[from..end]);
                from = end;
            } else {
                push_hex(&mut pieces, &mut other);
                let name = name.clone();
                pieces.push(Piece::Part { name, from, length });
                from += length;
            }
        }
        push_hex(&mut pieces, &mut other);
        pieces
    }

    /// A lent string as an argument that is only read.
    pub fn input(&self, lent: &Lent) -> Argument {
        Argument::Input(self.pieces(lent))
    }

    /// Adds a call.
    pub fn add(&mut self, call: Call) {
        assert!(is_word(&call.label), "{:?} is no label", call.label);
        let new = self.labels.insert(call.label.clone());
        assert!(new, "{} is the label of two calls", call.label);
        self.calls.push(call);
    }

    /// The calls so far.
    pub fn calls(&self) -> &[Call] {
        &self.calls
    }

    /// The bytes that pieces stand for.
    pub fn bytes(&self, pieces: &[Piece]) -> Vec<u8> {
        pieces.iter().flat_map(|piece| self.piece(piece)).collect()
    }

    fn piece(&self, piece: &Piece) -> Vec<u8> {
        let whole = |name| self.named(name).expect("the name is defined");
        match piece {
            Piece::Hex(bytes) => bytes.clone(),
            Piece::Zeros(length) => vec![0; *length],
            Piece::Noise { seed, length } => Noise::new(*seed).bytes(*length),
            Piece::Named(name) => whole(name).to_vec(),
            Piece::Part { name, from, length } => whole(name)[*from..*from + *length].to_vec(),
        }
    }
}

/// A file of calls as it is made: which function it is of, the calls so far,
/// and the source of their inputs.
pub struct Maker<Function> {
    /// The function.
    pub function: Function,
    /// The calls.
    pub sheet: Sheet,
    /// The source.
    pub noise: Noise,
}

impl<Function> Maker<Function> {
    /// No calls, and a source that starts at a seed.
    pub fn new(function: Function, seed: u64) -> Self {
        Maker {
            function,
            sheet: Sheet::default(),
            noise: Noise::new(seed),
        }
    }
}

/// Puts bytes behind the pieces, if there are any, and takes them away.
fn push_hex(pieces: &mut Vec<Piece>, bytes: &mut Vec<u8>) {
    if !bytes.is_empty() {
        pieces.push(Piece::Hex(std::mem::take(bytes)));
    }
}

/// Whether a text can stand between spaces.
fn is_word(text: &str) -> bool {
    !text.is_empty() && text.chars().all(|c| c.is_ascii_graphic())
}

impl fmt::Display for Piece {
    fn fmt(&self, f: &mut fmt::Formatter) -> fmt::Result {
        match self {
            Piece::Hex(bytes) => write!(f, "hex:{}", to_hex(bytes)),
            Piece::Zeros(length) => write!(f, "zeros:{length}"),
            Piece::Noise { seed, length } => write!(f, "noise:{seed:#x}:{length}"),
            Piece::Named(name) => write!(f, "named:{name}"),
            Piece::Part { name, from, length } => write!(f, "part:{name}:{from}:{length}"),
        }
    }
}

/// Pieces as they stand on a line, each behind a space.
fn joined(pieces: &[Piece]) -> String {
    pieces.iter().map(|piece| format!(" {piece}")).collect()
}

impl fmt::Display for Argument {
    fn fmt(&self, f: &mut fmt::Formatter) -> fmt::Result {
        match self {
            Argument::Number(number) => write!(f, "number {number}"),
            Argument::Input(pieces) => write!(f, "input{}", joined(pieces)),
            Argument::Written { length, start } => {
                write!(f, "written {length}{}", joined(start))
            }
        }
    }
}

impl fmt::Display for Call {
    fn fmt(&self, f: &mut fmt::Formatter) -> fmt::Result {
        writeln!(f, "call {} {}", self.label, self.function)?;
        for argument in &self.arguments {
            writeln!(f, "{argument}")?;
        }
        writeln!(f, "answer {:#x}", self.answer)
    }
}

impl fmt::Display for Sheet {
    fn fmt(&self, f: &mut fmt::Formatter) -> fmt::Result {
        for defined in &self.defined {
            writeln!(f, "define {}{}", defined.name, joined(&defined.pieces))?;
        }
        self.calls.iter().try_for_each(|call| write!(f, "{call}"))
    }
}

#[cfg(test)]
mod tests {
    use super::*;
    use crate::sets::{Set, SETS};

    impl Sheet {
        /// How many labels start so.
        pub fn count(&self, start: &str) -> usize {
            let labels = self.labels.iter();
            labels.filter(|label| label.starts_with(start)).count()
        }

        /// The set's number, the length of the output and what stands at its
        /// start, of a call that has them as its first and last arguments.
        pub fn ends(&self, call: &Call) -> (u64, usize, Vec<u8>) {
            match (call.arguments.first(), call.arguments.last()) {
                (Some(Argument::Number(set)), Some(Argument::Written { length, start })) => {
                    (*set, *length, self.bytes(start))
                }
                _ => panic!("{}: other arguments", call.label),
            }
        }
    }

    /// Checks that a refused call keeps its output and any other writes as
    /// many bytes as needed, and that each set has outputs of just that length
    /// and longer ones.
    pub fn check_outputs(sheet: &Sheet, needed: impl Fn(&Set) -> usize) {
        let mut seen = BTreeSet::new();
        for call in sheet.calls() {
            let (set, length, start) = sheet.ends(call);
            assert_eq!(call.answer & 0xffff_ffff, start.len() as u64);
            if call.answer >> 32 != 0 {
                assert!(start.is_empty(), "{}", call.label);
                continue;
            }
            let set = Set::by_number(set).expect("no set is refused");
            assert_eq!(start.len(), needed(set), "{}", call.label);
            seen.insert((set.number, length > start.len()));
        }
        assert_eq!(seen.len(), 2 * SETS.len());
    }

    /// Checks that the room, which is this argument, is left zero by just the
    /// calls that got as far as using it, and gives how many calls end in each
    /// refusal, by its number.
    pub fn check_rooms(sheet: &Sheet, room: usize) -> [usize; 13] {
        let mut counts = [0; 13];
        for call in sheet.calls() {
            let refusal = (call.answer >> 32) as usize;
            counts[refusal] += 1;
            let Argument::Written { length, start } = &call.arguments[room] else {
                panic!("{}: no room", call.label);
            };
            let used = [0, 8, 12].contains(&refusal);
            assert_eq!(!start.is_empty(), used, "{}", call.label);
            let bytes = sheet.bytes(start);
            assert!(bytes.len() <= *length, "{}", call.label);
            assert!(bytes.iter().all(|&byte| byte == 0), "{}", call.label);
        }
        counts
    }

    fn labelled(label: &str) -> Call {
        Call::with_output(label.into(), "f", vec![], 0, Ok(vec![]))
    }

    #[test]
    fn a_sheet_is_written_as_described() {
        let mut sheet = Sheet::default();
        let zeros = sheet.define("zeros", vec![Piece::Zeros(7)]);
        let keys = sheet.define("keys", vec![Piece::Hex(vec![1, 2, 3]), zeros]);
        sheet.add(Call::with_output(
            "fine".into(),
            "f",
            vec![Argument::Number(7), Argument::Input(vec![keys])],
            9,
            Ok(vec![0xab, 0xcd]),
        ));
        sheet.add(Call::with_output(
            "refused".into(),
            "g",
            vec![Argument::Input(vec![])],
            5,
            Err(Refusal::Room),
        ));
        let text = "\
define zeros zeros:7
define keys hex:010203 named:zeros
call fine f
number 7
input named:keys
written 9 hex:abcd
answer 0x2
call refused g
input
written 5
answer 0x600000000
";
        assert_eq!(sheet.to_string(), text);
    }

    /// Each kind of piece: its text, and the bytes that it stands for.
    #[test]
    fn pieces_as_text_and_as_bytes() {
        let mut sheet = Sheet::default();
        let named = sheet.define("s", vec![Piece::Hex(vec![1, 2, 3, 4])]);
        let part = Piece::Part {
            name: "s".into(),
            from: 1,
            length: 2,
        };
        let noise = Piece::Noise { seed: 1, length: 2 };
        let pieces = [
            (Piece::Hex(vec![0, 0x1f]), "hex:001f", vec![0, 0x1f]),
            (Piece::Zeros(3), "zeros:3", vec![0, 0, 0]),
            (noise, "noise:0x1:2", vec![0x47, 0xab]),
            (named, "named:s", vec![1, 2, 3, 4]),
            (part, "part:s:1:2", vec![2, 3]),
        ];
        for (piece, text, bytes) in &pieces {
            assert_eq!(piece.to_string(), *text);
            assert_eq!(sheet.piece(piece), *bytes, "{text}");
        }
        let all = pieces.map(|(piece, _, _)| piece);
        assert_eq!(sheet.bytes(&all[3..]), [1, 2, 3, 4, 2, 3]);
    }

    /// A change to a string, and how it is written then.
    type Written = (fn(&mut Vec<u8>), &'static str);

    /// Strings that differ from a defined one: in no byte, at the start, inside
    /// twice, in length.
    #[test]
    fn lent_strings_are_written_as_what_they_differ_in() {
        let mut sheet = Sheet::default();
        sheet.define("s", vec![Piece::Zeros(200)]);
        let changes: [Written; 7] = [
            (|_| (), " named:s"),
            (|x| x[0] = 1, " hex:01 part:s:1:199"),
            (
                |x| (x[100], x[103]) = (1, 2),
                " part:s:0:100 hex:01000002 part:s:104:96",
            ),
            (|x| x.truncate(150), " part:s:0:150"),
            (|x| x.truncate(3), " hex:000000"),
            (|x| x.extend([0, 7]), " part:s:0:200 hex:0007"),
            (|x| x.clear(), ""),
        ];
        for (change, expected) in changes {
            let mut lent = sheet.lend("s");
            change(&mut lent.bytes);
            let pieces = sheet.pieces(&lent);
            assert_eq!(joined(&pieces), expected);
            assert_eq!(sheet.bytes(&pieces), lent.bytes, "{expected}");
        }
    }

    #[test]
    #[should_panic(expected = "the label of two calls")]
    fn a_label_names_one_call() {
        let mut sheet = Sheet::default();
        sheet.add(labelled("same"));
        sheet.add(labelled("same"));
    }

    #[test]
    #[should_panic(expected = "defined twice")]
    fn a_name_stands_for_one_string() {
        let mut sheet = Sheet::default();
        sheet.define("same", vec![Piece::Zeros(1)]);
        sheet.define("same", vec![Piece::Zeros(2)]);
    }

    #[test]
    #[should_panic(expected = "is no label")]
    fn a_label_is_one_word() {
        Sheet::default().add(labelled("two words"));
    }
}
