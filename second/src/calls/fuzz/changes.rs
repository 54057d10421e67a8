//! Seeded changes to a signature: by its fields, and to the bytes of either
//! form.

use crate::calls::strings::of_noise;
use crate::noise::Noise;
use crate::sets::{Set, SALT_BYTES};
use crate::signature::{Opening, Signature};

/// A change to a signature's fields. It may take parts of another signature of
/// the set.
pub type FieldChange = fn(&Set, &mut Signature, &Signature, &mut Noise);

/// Every change of fields, with its name for labels.
pub const FIELD_CHANGES: [(&str, FieldChange); 13] = [
    ("value", value),
    ("wrong-value", wrong_value),
    ("traded", traded),
    ("exchanged", exchanged),
    ("repeated", repeated),
    ("spliced", spliced),
    ("tail", tail),
    ("salt", salt),
    ("field", field),
    ("padding", padding),
    ("share", share),
    ("values", values),
    ("noise", all_noise),
];

/// A change to the bytes of a form that starts with so many bytes of values.
pub type ByteChange = fn(&mut Vec<u8>, usize, &mut Noise);

/// Every change of bytes, with its name for labels.
pub const BYTE_CHANGES: [(&str, ByteChange); 11] = [
    ("bit", bit),
    ("byte", byte),
    ("run", run),
    ("head-bit", head_bit),
    ("head-end", head_end),
    ("cut", cut),
    ("cut-few", cut_few),
    ("longer", longer),
    ("shifted", shifted),
    ("random", random),
    ("random-length", random_length),
];

fn round(set: &Set, noise: &mut Noise) -> usize {
    noise.between(0, set.t - 1)
}

fn one_in(noise: &mut Noise, many: usize) -> bool {
    noise.between(1, many) == 1
}

/// Another value of a round, with a share of the length that it needs.
fn value(set: &Set, signature: &mut Signature, _: &Signature, noise: &mut Noise) {
    let k = round(set, noise);
    let value = (signature.values[k] + noise.between(1, 2) as u8) % 3;
    signature.values[k] = value;
    let share = &mut signature.openings[k].share;
    let filling = noise.bytes(set.share_bytes(value));
    share.truncate(filling.len());
    share.extend(&filling[share.len()..]);
}

/// Another value of a round, which need not be one, over a share of the old
/// value's length.
fn wrong_value(set: &Set, signature: &mut Signature, _: &Signature, noise: &mut Noise) {
    let k = round(set, noise);
    signature.values[k] = match noise.between(0, 4) {
        4 => noise.between(0, 255) as u8,
        value => value as u8,
    };
}

/// The values of two rounds, each in the other's place, over shares that stay:
/// the whole keeps its length, and what is between the rounds moves.
fn traded(set: &Set, signature: &mut Signature, _: &Signature, noise: &mut Noise) {
    let (x, y) = (round(set, noise), round(set, noise));
    signature.values.swap(x, y);
}

/// Two whole rounds, each in the other's place, with or without their values.
fn exchanged(set: &Set, signature: &mut Signature, _: &Signature, noise: &mut Noise) {
    let (x, y) = (round(set, noise), round(set, noise));
    signature.openings.swap(x, y);
    if !one_in(noise, 3) {
        signature.values.swap(x, y);
    }
}

/// A round in the place of another.
fn repeated(set: &Set, signature: &mut Signature, _: &Signature, noise: &mut Noise) {
    let (from, to) = (round(set, noise), round(set, noise));
    signature.values[to] = signature.values[from];
    signature.openings[to] = signature.openings[from].clone();
}

/// A round of the other signature.
fn spliced(set: &Set, signature: &mut Signature, other: &Signature, noise: &mut Noise) {
    let k = round(set, noise);
    signature.values[k] = other.values[k];
    signature.openings[k] = other.openings[k].clone();
}

/// All rounds of the other signature from one on.
fn tail(set: &Set, signature: &mut Signature, other: &Signature, noise: &mut Noise) {
    let k = round(set, noise);
    signature.values[k..].copy_from_slice(&other.values[k..]);
    signature.openings[k..].clone_from_slice(&other.openings[k..]);
}

/// A bit of the salt, or the other signature's.
fn salt(_: &Set, signature: &mut Signature, other: &Signature, noise: &mut Noise) {
    if one_in(noise, 2) {
        signature.salt = other.salt.clone();
    } else {
        bit(&mut signature.salt, 0, noise);
    }
}

/// One of the fields of a round.
fn any_field<'a>(opening: &'a mut Opening, noise: &mut Noise) -> &'a mut Vec<u8> {
    match noise.between(0, 4) {
        0 => &mut opening.commitment,
        1 => &mut opening.transcript,
        2 => &mut opening.seeds[0],
        3 => &mut opening.seeds[1],
        _ => &mut opening.share,
    }
}

/// A bit of a field of a round, or all of the field.
fn field(set: &Set, signature: &mut Signature, _: &Signature, noise: &mut Noise) {
    let field = any_field(&mut signature.openings[round(set, noise)], noise);
    match noise.between(0, 3) {
        0 => *field = noise.bytes(field.len()),
        1 => field.fill(0),
        _ => bit(field, 0, noise),
    }
}

/// Low bits of the last byte of a transcript, which pad it in some sets.
fn padding(set: &Set, signature: &mut Signature, _: &Signature, noise: &mut Noise) {
    let transcript = &mut signature.openings[round(set, noise)].transcript;
    *transcript.last_mut().expect("there are gates") ^= noise.between(1, 15) as u8;
}

/// A share for a round that may have none, or none for one that has it.
fn share(set: &Set, signature: &mut Signature, _: &Signature, noise: &mut Noise) {
    let share = &mut signature.openings[round(set, noise)].share;
    *share = match share.len() {
        0 => noise.bytes(set.width()),
        _ => vec![],
    };
}

/// All values alike, with shares to fit.
fn values(set: &Set, signature: &mut Signature, _: &Signature, noise: &mut Noise) {
    let value = noise.between(0, 2) as u8;
    signature.values.fill(value);
    for opening in &mut signature.openings {
        opening.share.resize(set.share_bytes(value), 7);
    }
}

/// Noise in all fields, with random values.
fn all_noise(set: &Set, signature: &mut Signature, _: &Signature, noise: &mut Noise) {
    let values = (0..set.t).map(|_| noise.between(0, 2) as u8).collect();
    *signature = of_noise(set, values, noise);
}

/// A place in the bytes, if they have any.
fn place(bytes: &[u8], noise: &mut Noise) -> Option<usize> {
    (!bytes.is_empty()).then(|| noise.between(0, bytes.len() - 1))
}

fn bit(bytes: &mut Vec<u8>, _: usize, noise: &mut Noise) {
    if let Some(place) = place(bytes, noise) {
        bytes[place] ^= 1 << noise.between(0, 7);
    }
}

fn byte(bytes: &mut Vec<u8>, _: usize, noise: &mut Noise) {
    if let Some(place) = place(bytes, noise) {
        bytes[place] = noise.between(0, 255) as u8;
    }
}

/// A run of bytes: noise, zeros or ones.
fn run(bytes: &mut Vec<u8>, _: usize, noise: &mut Noise) {
    let Some(from) = place(bytes, noise) else {
        return;
    };
    let to = bytes.len().min(from + noise.between(1, 100));
    match noise.between(0, 2) {
        0 => bytes[from..to].copy_from_slice(&noise.bytes(to - from)),
        1 => bytes[from..to].fill(0),
        _ => bytes[from..to].fill(0xff),
    }
}

/// A bit of the values.
fn head_bit(bytes: &mut Vec<u8>, head: usize, noise: &mut Noise) {
    let place = noise.between(0, head - 1);
    if let Some(byte) = bytes.get_mut(place) {
        *byte ^= 1 << noise.between(0, 7);
    }
}

/// Low bits of the last byte of the values, which pad a header.
fn head_end(bytes: &mut Vec<u8>, head: usize, noise: &mut Noise) {
    if let Some(byte) = bytes.get_mut(head - 1) {
        *byte ^= noise.between(1, 15) as u8;
    }
}

/// Cut anywhere, or where the head or the salt ends.
fn cut(bytes: &mut Vec<u8>, head: usize, noise: &mut Noise) {
    let length = match noise.between(0, 3) {
        0 => head + SALT_BYTES - noise.between(0, 1),
        _ => noise.between(0, bytes.len()),
    };
    bytes.truncate(length);
}

/// Some bytes less.
fn cut_few(bytes: &mut Vec<u8>, _: usize, noise: &mut Noise) {
    bytes.truncate(bytes.len().saturating_sub(noise.between(1, 70)));
}

/// Some bytes more.
fn longer(bytes: &mut Vec<u8>, _: usize, noise: &mut Noise) {
    let more = noise.between(1, 70);
    match noise.between(0, 1) {
        0 => bytes.extend(vec![0; more]),
        _ => bytes.extend(noise.bytes(more)),
    }
}

/// A byte left out, or one put in, so that all behind it moves.
fn shifted(bytes: &mut Vec<u8>, _: usize, noise: &mut Noise) {
    let Some(place) = place(bytes, noise) else {
        return;
    };
    if one_in(noise, 2) {
        bytes.remove(place);
    } else {
        bytes.insert(place, noise.between(0, 255) as u8);
    }
}

/// Noise of the same length.
fn random(bytes: &mut Vec<u8>, _: usize, noise: &mut Noise) {
    *bytes = noise.bytes(bytes.len());
}

/// Noise or zeros of any length up to somewhat more.
fn random_length(bytes: &mut Vec<u8>, _: usize, noise: &mut Noise) {
    let length = noise.between(0, bytes.len() + 1000);
    *bytes = match noise.between(0, 1) {
        0 => vec![0; length],
        _ => noise.bytes(length),
    };
}

#[cfg(test)]
mod tests {
    use super::*;
    use crate::sets::SETS;

    fn signature(set: &Set, seed: u64) -> Signature {
        let values = (0..set.t).map(|k| (k % 3) as u8).collect();
        of_noise(set, values, &mut Noise::new(seed))
    }

    /// Each change does something, most times, and leaves bytes of both forms.
    #[test]
    fn every_change_changes_something() {
        let (set, mut noise) = (&SETS[1], Noise::new(1));
        let (first, other) = (signature(set, 1), signature(set, 2));
        for (name, change) in FIELD_CHANGES {
            let changed = (0..30).filter(|_| {
                let mut signature = first.clone();
                change(set, &mut signature, &other, &mut noise);
                let forms = (signature.bytes(), signature.unpacked(set));
                assert_eq!(forms.1.len(), set.unpacked_bytes(), "{name}");
                forms != (first.bytes(), first.unpacked(set))
            });
            assert!(changed.count() >= 15, "{name}");
        }
        let bytes = first.bytes();
        for (name, change) in BYTE_CHANGES {
            let changed = (0..30).filter(|_| {
                let mut other = bytes.clone();
                change(&mut other, set.header_bytes(), &mut noise);
                other != bytes
            });
            assert!(changed.count() >= 25, "{name}");
        }
    }

    /// Changes of bytes follow on one another, so any may meet a short string.
    #[test]
    fn short_strings_are_changed_too() {
        let mut noise = Noise::new(1);
        for (_, change) in BYTE_CHANGES {
            for length in [0, 1, 2, 60] {
                change(&mut vec![5; length], 55, &mut noise);
            }
        }
    }

    /// A changed value with its lengths mended is a signature of its form, and
    /// reads back.
    #[test]
    fn mended_values_have_their_lengths() {
        let mut noise = Noise::new(1);
        for set in &SETS {
            let mut signature = signature(set, 3);
            for _ in 0..20 {
                let before = signature.clone();
                value(set, &mut signature, &before, &mut noise);
                assert_ne!(signature, before);
                let bytes = signature.bytes();
                assert_eq!(Signature::read(set, &bytes).as_ref(), Ok(&signature));
            }
        }
    }
}
