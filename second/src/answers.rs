//! The numbers that a host gets back.
//!
//! A call answers one number of 64 bits: the refusal's number times 2^32,
//! plus the bytes written, which are none where it refuses.

/// Why a call does not do what it is asked. The numbers are those of 01's
/// table; number 0 there is no refusal.
#[derive(Clone, Copy, Debug, PartialEq, Eq)]
pub enum Refusal {
    /// The set is not 1, 2 or 3.
    NoSet = 1,
    /// A table has another length.
    Table = 2,
    /// A key or block has another length.
    Key = 3,
    /// The message is empty or too long.
    Message = 4,
    /// The block limit is 0 or too high.
    Limit = 5,
    /// Room or an output is too short, seeds have another length, or a hash
    /// output is too long.
    Room = 6,
    /// The keys to sign with are no pair.
    Pair = 7,
    /// The allowed blocks have too few challenge values.
    Blocks = 8,
    /// A signature or an unpacked form has a wrong length.
    WrongLength = 9,
    /// A challenge value or the padding behind the values is wrong.
    Header = 10,
    /// Padding of a transcript, or a share that must be zero, is not.
    Padding = 11,
    /// The recomputed challenge differs.
    Differs = 12,
}

/// Every refusal with its name in the header.
pub const REFUSALS: [(Refusal, &str); 12] = [
    (Refusal::NoSet, "NO_SET"),
    (Refusal::Table, "TABLE"),
    (Refusal::Key, "KEY"),
    (Refusal::Message, "MESSAGE"),
    (Refusal::Limit, "LIMIT"),
    (Refusal::Room, "ROOM"),
    (Refusal::Pair, "PAIR"),
    (Refusal::Blocks, "BLOCKS"),
    (Refusal::WrongLength, "WRONG_LENGTH"),
    (Refusal::Header, "HEADER"),
    (Refusal::Padding, "PADDING"),
    (Refusal::Differs, "DIFFERS"),
];

impl Refusal {
    /// The refusal's number.
    pub const fn number(self) -> u64 {
        self as u64
    }

    /// The answer of a call that refuses so.
    pub const fn answer(self) -> u64 {
        self.number() << 32
    }
}

/// The answer of a call that is done and has written this many bytes.
pub fn done(written: usize) -> u64 {
    u64::from(u32::try_from(written).expect("the bytes written fit the lower half"))
}

#[cfg(test)]
mod tests {
    use super::*;

    #[test]
    fn refusals_are_listed_by_rising_number() {
        let numbers: Vec<u64> = REFUSALS
            .iter()
            .map(|(refusal, _)| refusal.number())
            .collect();
        assert_eq!(numbers, (1..=12).collect::<Vec<u64>>());
    }

    #[test]
    fn halves_of_an_answer() {
        assert_eq!(Refusal::NoSet.answer(), 4_294_967_296);
        assert_eq!(Refusal::Room.answer(), 25_769_803_776);
        assert_eq!(done(0), 0);
        assert_eq!(done(1_048_576), 1_048_576);
    }
}
