//! Signatures and unpacked forms as byte strings: where their fields are, and
//! what can be wrong with them.

use std::collections::BTreeSet;

use super::faults::Fault;
use crate::answers::Refusal;
use crate::noise::Noise;
use crate::sets::{Set, SALT_BYTES, SETS};
use crate::signature::{Opening, Signature};

/// A signature of noise with these values.
pub fn of_noise(set: &Set, values: Vec<u8>, noise: &mut Noise) -> Signature {
    let padding = 8 * set.transcript_bytes() - set.transcript_bits();
    let mut opening = |&value: &u8| {
        let mut transcript = noise.bytes(set.transcript_bytes());
        *transcript.last_mut().expect("there are gates") &= 0xff << padding;
        Opening {
            commitment: noise.bytes(set.digest_bytes),
            transcript,
            seeds: [(); 2].map(|()| noise.bytes(set.seed_width())),
            share: noise.bytes(set.share_bytes(value)),
        }
    };
    let openings = values.iter().map(&mut opening).collect();
    Signature {
        openings,
        salt: noise.bytes(SALT_BYTES),
        values,
    }
}

/// Where a round starts in a signature with these values.
pub fn round_place(set: &Set, values: &[u8], round: usize) -> usize {
    set.signature_bytes(&values[..round])
}

/// Where a round starts in an unpacked form.
fn form_place(set: &Set, round: usize) -> usize {
    set.t + SALT_BYTES + round * set.round_bytes(1)
}

/// Where the fields of a round end in a signature with these values.
pub fn field_ends(set: &Set, values: &[u8], round: usize) -> Vec<usize> {
    let fields = [
        set.digest_bytes,
        set.transcript_bytes(),
        set.seed_width(),
        set.seed_width(),
        set.share_bytes(values[round]),
    ];
    let mut end = round_place(set, values, round);
    let ends = fields.map(|field| {
        end += field;
        end
    });
    ends.into()
}

/// A change to a string, with a name for labels.
pub type Change = (String, Box<dyn Fn(&mut Vec<u8>)>);

fn change(name: String, change: impl Fn(&mut Vec<u8>) + 'static) -> Change {
    (name, Box::new(change))
}

/// The string with some bits of a byte turned.
fn turned(name: String, place: usize, mask: u8) -> Change {
    change(name, move |bytes| bytes[place] ^= mask)
}

/// The string with another byte at a place.
fn set_to(name: String, place: usize, byte: u8) -> Change {
    change(name, move |bytes| bytes[place] = byte)
}

/// The string cut or filled with zeros to a length.
fn resized(name: &str, length: usize) -> Change {
    let name = format!("{name}-to{length}");
    change(name, move |bytes| bytes.resize(length, 0))
}

/// The first, a middle and the last round.
fn some_rounds(set: &Set) -> [usize; 3] {
    [0, set.t / 2, set.t - 1]
}

/// Damage to a signature with these values.
pub fn damaged_signatures(set: &Set, values: &[u8]) -> Vec<Change> {
    let mut changes = Vec::new();
    for k in some_rounds(set) {
        let low_bit_first = |value: u8| ((value & 1) << 1) | (value >> 1);
        let pair = |value: u8| low_bit_first(value) << (6 - 2 * (k % 4));
        for value in 0..=3 {
            let mask = pair(values[k]) ^ pair(value);
            let name = format!("value{k}-from{}-to{value}", values[k]);
            changes.push(turned(name, k / 4, mask));
        }
    }
    for bit in 2 * set.t..8 * set.header_bytes() {
        let mask = 0x80 >> (bit % 8);
        changes.push(turned(format!("header-padding{bit}"), bit / 8, mask));
    }
    for round in some_rounds(set) {
        let ends = field_ends(set, values, round);
        for bit in 0..5 {
            let name = format!("transcript{round}-bit{bit}");
            changes.push(turned(name, ends[1] - 1, 1 << bit));
        }
        for (field, end) in ends.iter().enumerate() {
            changes.push(turned(format!("round{round}-end{field}"), end - 1, 0x80));
        }
    }
    changes
}

/// A signature with these values cut within and beside its fields, and with
/// bytes behind its end.
pub fn other_signature_lengths(set: &Set, values: &[u8]) -> Vec<Change> {
    let head = set.header_bytes();
    let mut ends = BTreeSet::from([0, 1, head, head + SALT_BYTES]);
    for round in [0, 1, set.t - 1] {
        ends.insert(round_place(set, values, round));
        ends.extend(field_ends(set, values, round));
    }
    let whole = set.signature_bytes(values);
    let mut lengths: BTreeSet<usize> = ends
        .iter()
        .flat_map(|&end| [end.saturating_sub(1), end, end + 1])
        .collect();
    lengths.extend([whole + set.width(), whole + 1000, set.longest_signature()]);
    lengths.extend(SETS.iter().map(|set| set.signature_bytes(&vec![0; set.t])));
    lengths.iter().map(|&n| resized("length", n)).collect()
}

/// Damage to an unpacked form with these values.
pub fn damaged_forms(set: &Set, values: &[u8]) -> Vec<Change> {
    let mut changes = Vec::new();
    for k in some_rounds(set) {
        for value in [0, 1, 2, 3, 4, 0x80, 0xff] {
            let name = format!("value{k}-from{}-to{value}", values[k]);
            changes.push(set_to(name, k, value));
        }
    }
    for round in some_rounds(set) {
        let transcript = form_place(set, round) + set.digest_bytes + set.transcript_bytes() - 1;
        for bit in 0..5 {
            let name = format!("transcript{round}-bit{bit}");
            changes.push(turned(name, transcript, 1 << bit));
        }
        changes.push(turned(
            format!("commitment{round}"),
            form_place(set, round),
            0x80,
        ));
    }
    let of_value = |value: u8| move |&round: &usize| values[round] == value;
    for value in 0..3 {
        let rounds: Vec<usize> = (0..set.t).filter(of_value(value)).collect();
        let (Some(&first), Some(&last)) = (rounds.first(), rounds.last()) else {
            continue;
        };
        for round in BTreeSet::from([first, rounds[rounds.len() / 2], last]) {
            let share = form_place(set, round) + set.round_bytes(0);
            for place in [0, set.width() / 2, set.width() - 1] {
                let name = format!("share{round}-of{value}-byte{place}");
                changes.push(turned(name, share + place, 1));
            }
        }
    }
    changes
}

/// Unpacked forms of other lengths.
pub fn other_form_lengths(set: &Set, values: &[u8]) -> Vec<Change> {
    let whole = set.unpacked_bytes();
    let mut lengths = BTreeSet::from([0, 1, set.t, whole - 1, whole, whole + 1, 2 * whole]);
    lengths.insert(set.signature_bytes(values));
    lengths.extend(SETS.iter().map(Set::unpacked_bytes));
    lengths.iter().map(|&n| resized("length", n)).collect()
}

/// Something wrong with a string.
type Wrong = Fault<Vec<u8>>;

fn fault(refusal: Refusal, (name, change): Change) -> Wrong {
    Wrong::new(&name, refusal, change)
}

/// Padding of a transcript that ends at a place, if it has any.
fn padding_fault(set: &Set, end: usize) -> Option<Wrong> {
    let spoil = change("padding".into(), move |bytes| bytes[end - 1] |= 1);
    let padded = 8 * set.transcript_bytes() > set.transcript_bits();
    padded.then(|| fault(Refusal::Padding, spoil))
}

/// What can be wrong with a signature.
pub fn signature_faults(set: &Set, values: &[u8]) -> Vec<Wrong> {
    let (last, whole) = (set.t - 1, set.signature_bytes(values));
    let pair = 3 << (6 - 2 * (last % 4));
    let mut faults = vec![
        fault(
            Refusal::WrongLength,
            resized("head", set.header_bytes() + SALT_BYTES - 1),
        ),
        fault(
            Refusal::Header,
            change("pair".into(), move |bytes| bytes[last / 4] |= pair),
        ),
        fault(
            Refusal::Header,
            change("header-padding".into(), move |bytes| bytes[last / 4] |= 1),
        ),
    ];
    for length in [whole - 1, whole + 1] {
        let other = fault(Refusal::WrongLength, resized("length", length));
        faults.push(other.after(Refusal::Header));
    }
    faults.extend(padding_fault(set, field_ends(set, values, last)[1]));
    faults
}

/// What can be wrong with an unpacked form.
pub fn form_faults(set: &Set, values: &[u8]) -> Vec<Wrong> {
    let whole = set.unpacked_bytes();
    let zero = values.iter().position(|&value| value == 0);
    let zero = zero.expect("one of many random values is 0");
    let share = form_place(set, zero) + set.round_bytes(0);
    let mut faults = vec![
        fault(Refusal::WrongLength, resized("length", whole - 1)),
        fault(Refusal::WrongLength, resized("length", whole + 1)),
        fault(Refusal::Header, set_to("value".into(), set.t - 1, 3)),
        fault(Refusal::Padding, set_to("share".into(), share, 1)),
    ];
    let transcript = form_place(set, 0) + set.digest_bytes + set.transcript_bytes();
    faults.extend(padding_fault(set, transcript));
    faults
}

#[cfg(test)]
mod tests {
    use super::*;
    use crate::signature::header;

    /// A changed value is the one that the name tells, 3 for a pair 11, and the
    /// others stay.
    #[test]
    fn changed_values_are_those_of_their_names() {
        for set in &SETS {
            let values: Vec<u8> = (0..set.t).map(|k| (k * k % 3) as u8).collect();
            let changes = damaged_signatures(set, &values);
            for k in some_rounds(set) {
                for value in 0..=3 {
                    let start = format!("value{k}-from{}-to{value}", values[k]);
                    let (_, change) = changes.iter().find(|(name, _)| *name == start).unwrap();
                    let (mut bytes, mut others) = (header(&values), values.clone());
                    change(&mut bytes);
                    others[k] = value;
                    assert_eq!(bytes, header(&others), "{}, {start}", set.name);
                }
            }
        }
    }
}
