//! Calls of picnic_verify with many damaged signatures, more than every build
//! of the host need run.

use super::statement::define_tables;
use super::strings::{field_ends, round_place};
use super::verify::{values, Function, Maker};
use super::Sheet;
use crate::noise::Noise;
use crate::sets::{Set, SALT_BYTES, SETS};

/// Where the choice of keys, messages and damage starts.
const SEED: u64 = 0x7069_636e_6963_0009;

/// Damaged signatures of each set; the other sets take much longer.
pub const DAMAGED: [usize; 3] = [2000, 200, 200];

/// How many of them are made from one signature.
const OF_ONE: usize = 100;

/// A signature that is to be damaged.
struct Target<'a> {
    set: &'a Set,
    values: &'a [u8],
    bytes: &'a mut Vec<u8>,
}

/// A way to damage a signature, which says where.
type Damage = fn(&mut Target, &mut Noise) -> usize;

/// Every way has its turn; the first comes every other time.
const WAYS: [(&str, Damage); 9] = [
    ("byte", byte),
    ("value", value),
    ("salt", salt),
    ("field", field),
    ("seeds", seeds),
    ("rounds", rounds),
    ("commitment", commitment),
    ("twice", twice),
    ("round", whole_round),
];

impl Target<'_> {
    fn round(&self, noise: &mut Noise) -> usize {
        noise.between(0, self.set.t - 1)
    }

    /// Where a round starts, and where its fields end.
    fn places(&self, round: usize) -> Vec<usize> {
        let mut places = vec![round_place(self.set, self.values, round)];
        places.extend(field_ends(self.set, self.values, round));
        places
    }

    /// Two rounds of one value.
    fn two_rounds(&self, noise: &mut Noise) -> (usize, usize) {
        loop {
            let (x, y) = (self.round(noise), self.round(noise));
            if x != y && self.values[x] == self.values[y] {
                return (x, y);
            }
        }
    }

    fn turn(&mut self, place: usize, mask: usize) {
        self.bytes[place] ^= mask as u8;
    }
}

/// Some bits of a byte anywhere.
fn byte(target: &mut Target, noise: &mut Noise) -> usize {
    let place = noise.between(0, target.bytes.len() - 1);
    target.turn(place, noise.between(1, 255));
    place
}

/// The value of a round: 1 for 2 and 2 for 1, which need as many bytes; 3 for
/// 0.
fn value(target: &mut Target, noise: &mut Noise) -> usize {
    let round = target.round(noise);
    target.turn(round / 4, 3 << (6 - 2 * (round % 4)));
    round
}

fn salt(target: &mut Target, noise: &mut Noise) -> usize {
    let place = target.set.header_bytes() + noise.between(0, SALT_BYTES - 1);
    target.turn(place, 1 << noise.between(0, 7));
    place
}

/// One bit of a field of a round, each field as often as the others.
fn field(target: &mut Target, noise: &mut Noise) -> usize {
    let places = target.places(target.round(noise));
    let fields = places.windows(2).filter(|ends| ends[0] < ends[1]).count();
    let chosen = noise.between(0, fields - 1);
    let place = noise.between(places[chosen], places[chosen + 1] - 1);
    target.turn(place, 1 << noise.between(0, 7));
    place
}

/// The two seeds of a round, each in the other's place.
fn seeds(target: &mut Target, noise: &mut Noise) -> usize {
    let round = target.round(noise);
    let places = target.places(round);
    target.bytes[places[2]..places[4]].rotate_left(target.set.seed_width());
    round
}

/// Two rounds of one value, each in the other's place.
fn rounds(target: &mut Target, noise: &mut Noise) -> usize {
    let (x, y) = target.two_rounds(noise);
    let (x_place, y_place) = (target.places(x)[0], target.places(y)[0]);
    for i in 0..target.set.round_bytes(target.values[x]) {
        target.bytes.swap(x_place + i, y_place + i);
    }
    x
}

/// The commitment of another round of the same value.
fn commitment(target: &mut Target, noise: &mut Noise) -> usize {
    let (x, y) = target.two_rounds(noise);
    let (from, to) = (target.places(x), target.places(y)[0]);
    target.bytes.copy_within(from[0]..from[1], to);
    y
}

/// The same bits of two bytes anywhere.
fn twice(target: &mut Target, noise: &mut Noise) -> usize {
    let mask = noise.between(1, 255);
    let place = noise.between(0, target.bytes.len() - 2);
    target.turn(place, mask);
    target.turn(noise.between(place + 1, target.bytes.len() - 1), mask);
    place
}

/// All of a round but the transcript's padding.
fn whole_round(target: &mut Target, noise: &mut Noise) -> usize {
    let round = target.round(noise);
    let places = target.places(round);
    let padded = places[2] - 1;
    for place in (places[0]..places[5]).filter(|&place| place != padded) {
        target.turn(place, noise.between(0, 255));
    }
    round
}

/// Adds calls with so many damaged signatures of a set.
fn add(maker: &mut Maker, set: &Set, count: usize) {
    define_tables(&mut maker.sheet, set, &mut maker.noise);
    let mut good = maker.case("real", set, 20);
    for i in 0..count {
        if i % OF_ONE == 0 && i > 0 {
            good = maker.case(["real", "noise"][i / OF_ONE % 2], set, 20 + i);
        }
        let (name, damage) = WAYS[if i % 2 == 0 { 0 } else { i / 2 % WAYS.len() }];
        let mut case = good.clone();
        let mut target = Target {
            set,
            values: &values(set, &good),
            bytes: &mut case.signature.bytes,
        };
        let place = damage(&mut target, &mut maker.noise);
        let label = format!("damaged-set{}-{i}-{name}{place}", set.number);
        maker.add(label, &case).ok();
    }
}

/// The file of calls, with so many damaged signatures of each set.
pub fn sheet(counts: [usize; 3]) -> Sheet {
    let mut maker = Maker::new(Function, SEED);
    for (set, count) in SETS.iter().zip(counts) {
        add(&mut maker, set, count);
    }
    maker.sheet
}

#[cfg(test)]
mod tests {
    use super::*;
    use crate::answers::Refusal;

    /// None is valid, and nearly all are refused for their challenge.
    #[test]
    fn damaged_signatures_are_refused() {
        let sheet = sheet([200, 20, 20]);
        let count = |answer: u64| {
            let calls = sheet.calls().iter();
            calls.filter(|call| call.answer == answer).count()
        };
        assert_eq!(sheet.calls().len(), 240);
        assert_eq!(count(0), 0);
        assert!(count(Refusal::Differs.answer()) >= 220);
        for (name, _) in WAYS {
            let named = |label: &str| label.rsplit('-').next().unwrap().starts_with(name);
            let calls = sheet.calls().iter();
            let found = calls.filter(|call| named(&call.label)).count();
            assert!(found >= 10, "{name}: {found}");
        }
    }

    /// Each way changes the signature, and no length but by the header.
    #[test]
    fn every_way_changes_something() {
        let mut maker = Maker::new(Function, 1);
        let set = &SETS[1];
        define_tables(&mut maker.sheet, set, &mut maker.noise);
        let case = maker.case("noise", set, 3);
        for (name, damage) in WAYS {
            let mut bytes = case.signature.bytes.clone();
            let mut target = Target {
                set,
                values: &values(set, &case),
                bytes: &mut bytes,
            };
            damage(&mut target, &mut maker.noise);
            assert_ne!(bytes, case.signature.bytes, "{name}");
            assert_eq!(bytes.len(), case.signature.bytes.len(), "{name}");
        }
    }
}
