//! What the calls of signing and of verifying have in common: set, tables,
//! public key, message, block limit and working room.

use super::faults::{no_sets, other_lengths, within, Fault};
use super::tables::{self, Contents, LentTables};
use super::{random_piece, Argument, Piece, Sheet};
use crate::answers::Refusal;
use crate::lowmc::Tables;
use crate::noise::Noise;
use crate::picnic::Statement;
use crate::sets::{Set, HIGHEST_BLOCK_LIMIT, LONGEST_MESSAGE};

/// The arguments that both calls take.
#[derive(Clone)]
pub struct Shared {
    /// The number of the set.
    pub set: u64,
    /// The tables.
    pub tables: LentTables,
    /// The public key.
    pub public: Vec<u8>,
    /// The message.
    pub message: Piece,
    /// The block limit.
    pub limit: u64,
    /// The length of the working room.
    pub room: usize,
}

/// Shared arguments by their bytes, with all that is lent.
pub struct Held {
    /// The set.
    pub set: &'static Set,
    tables: Tables,
    message: Vec<u8>,
}

impl Shared {
    /// The checks from 1 to 6. Those for a key and for room look besides at
    /// what one of the calls alone takes: whether that is of another length
    /// than it must be, by the set.
    pub fn check(
        &self,
        sheet: &Sheet,
        other_key: impl Fn(&Set) -> bool,
        other_room: impl Fn(&Set) -> bool,
    ) -> Result<Held, Refusal> {
        let set = Set::by_number(self.set).ok_or(Refusal::NoSet)?;
        if !self.tables.fit(set) {
            return Err(Refusal::Table);
        }
        if self.public.len() != set.public_key_bytes() || other_key(set) {
            return Err(Refusal::Key);
        }
        let message = sheet.bytes(std::slice::from_ref(&self.message));
        if message.is_empty() || message.len() > LONGEST_MESSAGE {
            return Err(Refusal::Message);
        }
        if self.limit == 0 || self.limit > HIGHEST_BLOCK_LIMIT as u64 {
            return Err(Refusal::Limit);
        }
        if self.room < set.room_bytes() || other_room(set) {
            return Err(Refusal::Room);
        }
        Ok(Held {
            set,
            tables: self.tables.tables(),
            message,
        })
    }

    /// What is to be signed or verified.
    pub fn statement<'a>(&'a self, held: &'a Held) -> Statement<'a> {
        Statement {
            set: held.set,
            tables: &held.tables,
            public: &self.public,
            message: &held.message,
            limit: self.limit,
        }
    }

    /// The working room as an argument: a call that got as far as using it
    /// leaves the needed bytes zero, and any other keeps all.
    pub fn room(&self, refusal: Option<Refusal>) -> Argument {
        let used = matches!(refusal, None | Some(Refusal::Blocks | Refusal::Differs));
        let needed = Set::by_number(self.set).map_or(0, Set::room_bytes);
        Argument::Written {
            length: self.room,
            start: if used {
                vec![Piece::Zeros(needed)]
            } else {
                vec![]
            },
        }
    }
}

/// All that can be wrong with the shared arguments.
pub fn faults() -> Vec<Fault<Shared>> {
    let fault = |name: &str, refusal, change: fn(&mut Shared)| Fault::new(name, refusal, change);
    let mut faults = within(no_sets(), |shared: &mut Shared| &mut shared.set);
    faults.extend(within(tables::faults(), |shared: &mut Shared| {
        &mut shared.tables
    }));
    faults.extend(within(
        other_lengths("public", Refusal::Key),
        |shared: &mut Shared| &mut shared.public,
    ));
    faults.extend([
        fault("message-empty", Refusal::Message, |shared| {
            shared.message = Piece::Hex(vec![]);
        }),
        fault("message-long", Refusal::Message, |shared| {
            shared.message = Piece::Zeros(LONGEST_MESSAGE + 1);
        }),
        fault("limit-none", Refusal::Limit, |shared| shared.limit = 0),
        fault("limit-high", Refusal::Limit, |shared| shared.limit = 65),
        fault("limit-far", Refusal::Limit, |shared| {
            shared.limit = (1 << 32) + 8;
        }),
        fault("room-short", Refusal::Room, |shared| shared.room -= 1),
        fault("room-empty", Refusal::Room, |shared| shared.room = 0),
    ]);
    faults
}

/// A key pair over defined tables, with a message.
#[derive(Clone)]
pub struct Pair {
    /// The secret key.
    pub secret: Vec<u8>,
    /// What goes with it, the highest limit and just the needed room.
    pub shared: Shared,
}

impl Pair {
    /// A random pair, and a random message of this length.
    pub fn random(sheet: &Sheet, kind: &str, set: &Set, message: usize, noise: &mut Noise) -> Pair {
        let tables = LentTables::lend(sheet, kind, set);
        let (secret, block) = (noise.bytes(set.width()), noise.bytes(set.width()));
        let ciphertext = set
            .lowmc()
            .encrypt_by_words(&tables.tables(), &secret, &block);
        let shared = Shared {
            set: set.number,
            tables,
            public: [ciphertext, block].concat(),
            message: random_piece(noise, message),
            limit: HIGHEST_BLOCK_LIMIT as u64,
            room: set.room_bytes(),
        };
        Pair { secret, shared }
    }
}

/// Defines the tables that signing and verifying are called with: those drawn
/// by the rule, and noise.
pub fn define_tables(sheet: &mut Sheet, set: &Set, noise: &mut Noise) {
    LentTables::define(sheet, "real", set, Contents::Real);
    LentTables::define(sheet, "noise", set, Contents::noise(noise));
}
