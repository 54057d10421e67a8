//! Calls of picnic_verify, picnic_read and picnic_write by seeded noise, with
//! what this program answers. A seed gives the same calls each time; any
//! number of seeds can be run.
//!
//! A batch starts from a few signatures: valid ones, made under keys and for
//! messages that follow from the seed, and some of noise. A call takes one of
//! them, changes it by its fields and by its bytes, and changes the other
//! arguments now and then.

pub mod changes;

use super::faults::choices;
use super::signature::{self, Function};
use super::statement::{self, define_tables, Shared};
use super::strings::of_noise;
use super::verify::{self, Maker};
use super::{random_piece, Piece, Sheet, NO_SETS};
use crate::noise::Noise;
use crate::sets::{Set, SETS};
use crate::signature::Signature;
use changes::{BYTE_CHANGES, FIELD_CHANGES};

/// A signature to start from, and what it is the signature of.
struct Source {
    set: &'static Set,
    signature: Signature,
    shared: Shared,
    packed: String,
    unpacked: String,
}

/// Signatures to start from, those of each set together.
type Corpus = [Vec<Source>; 3];

/// The tables under which each set has a valid signature to start from.
const VALID: [&[&str]; 3] = [&["real", "noise", "noise"], &["noise"], &["noise"]];

/// Defines a byte string of a set.
fn define(sheet: &mut Sheet, what: &str, set: &Set, bytes: Vec<u8>) -> String {
    let name = format!("{what}-{}-{}", set.number, sheet.names());
    sheet.define(&name, vec![Piece::Hex(bytes)]);
    name
}

/// A valid signature of a random message, over tables of this kind.
fn valid(maker: &mut Maker, set: &'static Set, kind: &str) -> Source {
    let length = maker.noise.between(1, 400);
    let case = maker.case(kind, set, length);
    let signature = Signature::read(set, &case.signature.bytes).expect("it is valid");
    Source {
        set,
        shared: case.shared,
        packed: case.signature.name,
        unpacked: define(&mut maker.sheet, "unpacked", set, signature.unpacked(set)),
        signature,
    }
}

/// A signature of noise, beside what it is not the signature of.
fn of_nothing(maker: &mut Maker, set: &'static Set, shared: Shared) -> Source {
    let values = (0..set.t).map(|_| maker.noise.between(0, 2) as u8);
    let signature = of_noise(set, values.collect(), &mut maker.noise);
    Source {
        set,
        shared,
        packed: define(&mut maker.sheet, "packed", set, signature.bytes()),
        unpacked: define(&mut maker.sheet, "unpacked", set, signature.unpacked(set)),
        signature,
    }
}

fn corpus(maker: &mut Maker) -> Corpus {
    std::array::from_fn(|i| {
        let set = &SETS[i];
        define_tables(&mut maker.sheet, set, &mut maker.noise);
        let kinds = VALID[i].iter();
        let mut sources: Vec<Source> = kinds.map(|kind| valid(maker, set, kind)).collect();
        let shared = sources[0].shared.clone();
        sources.push(of_nothing(maker, set, shared));
        sources
    })
}

/// One of some things.
fn any<'a, T>(things: &'a [T], noise: &mut Noise) -> &'a T {
    &things[noise.between(0, things.len() - 1)]
}

/// A signature to start from, what it is after up to two changes of its
/// fields, and the names of the changes.
fn changed<'a>(sources: &'a [Source], noise: &mut Noise) -> (&'a Source, Signature, String) {
    let (source, mut names) = (any(sources, noise), String::new());
    let mut signature = source.signature.clone();
    for _ in 0..noise.between(0, 2) {
        let (name, change) = any(&FIELD_CHANGES, noise);
        let other = &any(sources, noise).signature;
        change(source.set, &mut signature, other, noise);
        names += &format!("-{name}");
    }
    (source, signature, names)
}

/// Changes bytes that start with so many of values, every third time, and
/// gives the name of the change.
fn change_bytes(bytes: &mut Vec<u8>, head: usize, noise: &mut Noise) -> String {
    if noise.between(1, 3) != 1 {
        return String::new();
    }
    let (name, change) = any(&BYTE_CHANGES, noise);
    change(bytes, head, noise);
    format!("-{name}")
}

/// Changes what a signature is verified with, now and then: by something that
/// is refused, or another limit, which may be one that is refused, or another
/// room, message, key or table.
fn change_shared(shared: &mut Shared, set: &Set, noise: &mut Noise) {
    let turn = |bytes: &mut Vec<u8>, noise: &mut Noise| {
        let place = noise.between(0, bytes.len() - 1);
        bytes[place] ^= 1 << noise.between(0, 7);
    };
    match noise.between(0, 23) {
        0 => {
            let faults = statement::faults();
            let choices = choices(&faults, noise.between(0, 100));
            any(&choices, noise).spoil(shared);
        }
        1 => shared.limit = noise.between(0, 65) as u64,
        2 => shared.limit = noise.between(0, 5) as u64,
        3 => shared.room += noise.between(1, 500),
        4 => shared.message = random_piece(noise, set.width()),
        5 => turn(&mut shared.public, noise),
        6 => turn(&mut shared.tables.keys.bytes, noise),
        7 => turn(&mut shared.tables.layers.bytes, noise),
        8 => shared.room -= noise.between(1, shared.room),
        _ => (),
    }
}

fn add_verify(maker: &mut Maker, sources: &[Source], label: &str) {
    let (source, signature, names) = changed(sources, &mut maker.noise);
    let mut case = verify::Case {
        shared: source.shared.clone(),
        signature: maker.sheet.lend(&source.packed),
    };
    case.signature.bytes = signature.bytes();
    let head = source.set.header_bytes();
    let bytes = change_bytes(&mut case.signature.bytes, head, &mut maker.noise);
    change_shared(&mut case.shared, source.set, &mut maker.noise);
    maker.add(format!("{label}{names}{bytes}"), &case).ok();
}

/// The number of a set or of none, and the length of an output: mostly those
/// that are needed.
fn other_arguments(function: Function, set: &Set, noise: &mut Noise) -> (u64, usize) {
    let needed = function.needed(set);
    match noise.between(0, 15) {
        0 => (*any(&NO_SETS, noise), needed),
        1 => {
            let other = any(&SETS, noise);
            (other.number, function.needed(other))
        }
        2 => (set.number, needed - noise.between(1, needed)),
        3 => (set.number, needed - noise.between(0, 2)),
        4 => (set.number, needed + noise.between(1, 300)),
        _ => (set.number, needed),
    }
}

fn add_form(maker: &mut Maker, function: Function, sources: &[Source], label: &str) {
    let (source, signature, names) = changed(sources, &mut maker.noise);
    let set = source.set;
    let (given, bytes, head, written) = match function {
        Function::Read => {
            let head = set.header_bytes();
            (&source.packed, signature.bytes(), head, &source.unpacked)
        }
        Function::Write => (
            &source.unpacked,
            signature.unpacked(set),
            set.t,
            &source.packed,
        ),
    };
    let mut given = maker.sheet.lend(given);
    given.bytes = bytes;
    let change = change_bytes(&mut given.bytes, head, &mut maker.noise);
    let (number, output) = other_arguments(function, set, &mut maker.noise);
    let case = signature::Case {
        set: number,
        given,
        output,
        written: written.clone(),
    };
    let label = format!("{label}{names}{change}");
    signature::add(&mut maker.sheet, function, label, case).ok();
}

/// Adds a call of one of the functions. Verifying goes mostly to set 1, since
/// the others take much longer.
fn add(maker: &mut Maker, corpus: &Corpus, label: &str) {
    let which = maker.noise.between(0, 29);
    let (set, function) = match which {
        0..=8 => (0, None),
        9 => (maker.noise.between(1, 2), None),
        10..=19 => (maker.noise.between(0, 2), Some(Function::Read)),
        _ => (maker.noise.between(0, 2), Some(Function::Write)),
    };
    let label = format!("{label}-set{}", set + 1);
    match function {
        None => add_verify(maker, &corpus[set], &label),
        Some(function) => add_form(maker, function, &corpus[set], &label),
    }
}

/// So many calls that follow from a seed below 2^63.
pub fn sheet(seed: u64, count: usize) -> Sheet {
    let start = (2 * seed + 1).wrapping_mul(0x9e37_79b9_7f4a_7c15);
    let mut maker = Maker::new(verify::Function, start);
    let corpus = corpus(&mut maker);
    for i in 0..count {
        add(&mut maker, &corpus, &format!("fuzz{seed}-{i}"));
    }
    maker.sheet
}

#[cfg(test)]
mod tests {
    use super::*;
    use std::collections::BTreeMap;

    /// How often each function answers with each refusal.
    fn counts(seeds: std::ops::Range<u64>) -> BTreeMap<(&'static str, u64), usize> {
        let mut counts = BTreeMap::new();
        for seed in seeds {
            for call in sheet(seed, 300).calls() {
                let key = (call.function, call.answer >> 32);
                *counts.entry(key).or_default() += 1;
            }
        }
        counts
    }

    /// All three functions, and of each every answer that it has.
    #[test]
    fn every_answer_is_reached() {
        let counts = counts(0..6);
        let found = |function: &str, refusals: &[u64]| {
            for &refusal in refusals {
                let count = counts
                    .iter()
                    .find(|((f, r), _)| *f == function && *r == refusal);
                assert!(count.is_some(), "{function}, {refusal}: {counts:?}");
            }
        };
        found("picnic_read", &[0, 1, 6, 9, 10, 11]);
        found("picnic_write", &[0, 1, 6, 9, 10, 11]);
        found("picnic_verify", &[0, 1, 2, 3, 4, 5, 6, 8, 9, 10, 12]);
        assert!(counts[&("picnic_verify", 0)] >= 20, "{counts:?}");
        assert!(counts[&("picnic_verify", 12)] >= 150, "{counts:?}");
        assert!(counts[&("picnic_read", 0)] >= 150, "{counts:?}");
        assert!(counts[&("picnic_write", 0)] >= 150, "{counts:?}");
    }

    #[test]
    fn a_seed_gives_its_calls() {
        let text = |seed| sheet(seed, 20).to_string();
        assert!(text(7) == text(7), "the same");
        assert!(text(7) != text(8), "others");
        assert_eq!(sheet(0, 20).calls().len(), 20);
    }
}
