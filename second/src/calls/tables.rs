//! LowMC tables as calls lend them.

use super::faults::{other_lengths, within, Fault};
use super::{Argument, Lent, Piece, Sheet};
use crate::answers::Refusal;
use crate::lowmc::Tables;
use crate::noise::Noise;
use crate::sets::Set;

/// What stands in tables.
#[derive(Clone, Copy)]
pub enum Contents {
    /// The tables that are drawn by the rule.
    Real,
    /// Noise of so many seeds.
    Noise([u64; 3]),
    /// Zeros.
    Zero,
}

impl Contents {
    /// Noise, whose seeds are noise too.
    pub fn noise(noise: &mut Noise) -> Contents {
        Contents::Noise([(); 3].map(|()| noise.number()))
    }
}

/// The three tables, in the order of the arguments.
#[derive(Clone)]
pub struct LentTables {
    /// The key matrices.
    pub keys: Lent,
    /// The layer matrices.
    pub layers: Lent,
    /// The round constants.
    pub constants: Lent,
}

impl LentTables {
    /// Defines tables for a set, whose names start with that of the kind.
    pub fn define(sheet: &mut Sheet, kind: &str, set: &Set, contents: Contents) {
        let drawn = set.lowmc().tables();
        let real = [&drawn.keys, &drawn.layers, &drawn.constants];
        for (i, what) in ["keys", "layers", "constants"].iter().enumerate() {
            let length = real[i].len();
            let piece = match contents {
                Contents::Real => Piece::Hex(real[i].clone()),
                Contents::Noise(seeds) => {
                    let seed = seeds[i];
                    Piece::Noise { seed, length }
                }
                Contents::Zero => Piece::Zeros(length),
            };
            sheet.define(&name(kind, what, set), vec![piece]);
        }
    }

    /// The defined tables of a kind and a set.
    pub fn lend(sheet: &Sheet, kind: &str, set: &Set) -> LentTables {
        let lend = |what| sheet.lend(&name(kind, what, set));
        LentTables {
            keys: lend("keys"),
            layers: lend("layers"),
            constants: lend("constants"),
        }
    }

    /// Whether the lengths are those of a set.
    pub fn fit(&self, set: &Set) -> bool {
        self.keys.bytes.len() == set.key_table_bytes()
            && self.layers.bytes.len() == set.layer_table_bytes()
            && self.constants.bytes.len() == set.constants_bytes()
    }

    /// The tables.
    pub fn tables(&self) -> Tables {
        Tables {
            keys: self.keys.bytes.clone(),
            layers: self.layers.bytes.clone(),
            constants: self.constants.bytes.clone(),
        }
    }

    /// The tables as arguments.
    pub fn arguments(&self, sheet: &Sheet) -> [Argument; 3] {
        [&self.keys, &self.layers, &self.constants].map(|table| sheet.input(table))
    }
}

fn name(kind: &str, what: &str, set: &Set) -> String {
    format!("{kind}-{what}-{}", set.number)
}

/// Tables of other lengths.
pub fn faults() -> Vec<Fault<LentTables>> {
    let other = Refusal::Table;
    let mut faults = within(other_lengths("keys", other), |tables: &mut LentTables| {
        &mut tables.keys.bytes
    });
    faults.extend(within(
        other_lengths("layers", other),
        |tables: &mut LentTables| &mut tables.layers.bytes,
    ));
    faults.extend(within(
        other_lengths("constants", other),
        |tables: &mut LentTables| &mut tables.constants.bytes,
    ));
    faults.push(Fault::new(
        "tables-swapped",
        other,
        |tables: &mut LentTables| {
            std::mem::swap(&mut tables.keys, &mut tables.layers);
        },
    ));
    faults
}
