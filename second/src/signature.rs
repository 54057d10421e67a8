//! The bytes of a signature, and its unpacked form.
//!
//! A signature is a header with the challenge values, a salt, and an opening
//! for each round. The unpacked form has the same with the values one a byte
//! and all rounds of one length. Reading is strict, so that one signature has
//! one form.

use crate::answers::Refusal;
use crate::bits::{bit, to_bytes};
use crate::sets::{Set, SALT_BYTES};

/// What a signature says of a round with challenge value e.
#[derive(Clone, Debug, PartialEq, Eq)]
pub struct Opening {
    /// The commitment of party e+2, which stays closed.
    pub commitment: Vec<u8>,
    /// The transcript of party e+1.
    pub transcript: Vec<u8>,
    /// The seeds of parties e and e+1.
    pub seeds: [Vec<u8>; 2],
    /// The input share of party 2, which has no tape to draw it from. It is
    /// closed where e is 0; there it is empty.
    pub share: Vec<u8>,
}

impl Opening {
    /// The fields in their order.
    fn fields(&self) -> [&[u8]; 5] {
        [
            &self.commitment,
            &self.transcript,
            &self.seeds[0],
            &self.seeds[1],
            &self.share,
        ]
    }

    /// Whether the bits of the transcript behind the last gate are zero.
    fn is_padded(&self, set: &Set) -> bool {
        (set.transcript_bits()..8 * set.transcript_bytes()).all(|i| !bit(&self.transcript, i))
    }
}

/// A signature by its fields.
#[derive(Clone, Debug, PartialEq, Eq)]
pub struct Signature {
    /// The challenge values, each 0, 1 or 2.
    pub values: Vec<u8>,
    /// The salt.
    pub salt: Vec<u8>,
    /// One opening for each value.
    pub openings: Vec<Opening>,
}

/// A byte string that is handed out from its start.
struct Cursor<'a>(&'a [u8]);

impl Cursor<'_> {
    fn take(&mut self, length: usize) -> Vec<u8> {
        let (taken, rest) = self.0.split_at(length);
        self.0 = rest;
        taken.to_vec()
    }

    /// An opening with a share of this many bytes.
    fn opening(&mut self, set: &Set, share: usize) -> Opening {
        Opening {
            commitment: self.take(set.digest_bytes),
            transcript: self.take(set.transcript_bytes()),
            seeds: [self.take(set.seed_width()), self.take(set.seed_width())],
            share: self.take(share),
        }
    }
}

/// Two bits for each value, the low bit first, and zero bits to the byte. The
/// pairs of a challenge's blocks have the other order.
pub fn header(values: &[u8]) -> Vec<u8> {
    let bits = values
        .iter()
        .flat_map(|value| [value & 1 != 0, value & 2 != 0]);
    to_bytes(&bits.collect::<Vec<bool>>())
}

/// The values of a header; none if a pair is 11 or the padding is not zero.
fn header_values(set: &Set, bytes: &[u8]) -> Option<Vec<u8>> {
    let pair = |k| u8::from(bit(bytes, 2 * k)) + 2 * u8::from(bit(bytes, 2 * k + 1));
    let values: Vec<u8> = (0..set.t).map(pair).collect();
    let fine = values.iter().all(|&value| value < 3) && header(&values) == bytes;
    fine.then_some(values)
}

impl Signature {
    /// Reads a signature.
    pub fn read(set: &Set, bytes: &[u8]) -> Result<Signature, Refusal> {
        if bytes.len() < set.header_bytes() + SALT_BYTES {
            return Err(Refusal::WrongLength);
        }
        let (head, rest) = bytes.split_at(set.header_bytes());
        let values = header_values(set, head).ok_or(Refusal::Header)?;
        if bytes.len() != set.signature_bytes(&values) {
            return Err(Refusal::WrongLength);
        }
        let mut rest = Cursor(rest);
        let salt = rest.take(SALT_BYTES);
        let shares = values.iter().map(|&value| set.share_bytes(value));
        let openings: Vec<Opening> = shares.map(|share| rest.opening(set, share)).collect();
        if !openings.iter().all(|opening| opening.is_padded(set)) {
            return Err(Refusal::Padding);
        }
        Ok(Signature {
            values,
            salt,
            openings,
        })
    }

    /// Reads an unpacked form.
    pub fn read_unpacked(set: &Set, bytes: &[u8]) -> Result<Signature, Refusal> {
        if bytes.len() != set.unpacked_bytes() {
            return Err(Refusal::WrongLength);
        }
        let mut rest = Cursor(bytes);
        let values = rest.take(set.t);
        if values.iter().any(|&value| value > 2) {
            return Err(Refusal::Header);
        }
        let salt = rest.take(SALT_BYTES);
        let mut openings = Vec::new();
        for &value in &values {
            let mut opening = rest.opening(set, set.width());
            let beyond = opening.share.split_off(set.share_bytes(value));
            if !opening.is_padded(set) || beyond.iter().any(|&byte| byte != 0) {
                return Err(Refusal::Padding);
            }
            openings.push(opening);
        }
        Ok(Signature {
            values,
            salt,
            openings,
        })
    }

    /// The signature's bytes.
    pub fn bytes(&self) -> Vec<u8> {
        let mut bytes = [header(&self.values), self.salt.clone()].concat();
        for opening in &self.openings {
            bytes.extend(opening.fields().concat());
        }
        bytes
    }

    /// The unpacked form: every round has room for a share.
    pub fn unpacked(&self, set: &Set) -> Vec<u8> {
        let mut bytes = [&self.values[..], &self.salt].concat();
        for opening in &self.openings {
            let end = bytes.len() + set.round_bytes(1);
            bytes.extend(opening.fields().concat());
            bytes.resize(end, 0);
        }
        bytes
    }
}

#[cfg(test)]
mod tests {
    use super::*;
    use crate::calls::strings::of_noise;
    use crate::noise::Noise;
    use crate::sets::SETS;

    /// P12 of 01, as 02 mends it, and a value that starts a byte.
    #[test]
    fn header_of_four_values() {
        assert_eq!(header(&[0, 1, 2, 0]), [0x24]);
        assert_eq!(header(&[2, 2, 2, 2, 1]), [0x55, 0x80]);
    }

    fn refused(set: &Set, bytes: &[u8]) -> Option<Refusal> {
        Signature::read(set, bytes).err()
    }

    /// 01's examples of set 1: the last header byte, and lengths.
    #[test]
    fn examples_of_set_1() {
        let set = &SETS[0];
        let zeros = vec![0; 30_528];
        assert_eq!(refused(set, &zeros), None);
        assert_eq!(refused(set, &zeros[1..]), Some(Refusal::WrongLength));
        assert_eq!(refused(set, &[0; 30_544]), Some(Refusal::WrongLength));
        assert_eq!(refused(set, &[]), Some(Refusal::WrongLength));
        for (last, expected) in [
            (0x04, None),
            (0x01, Some(Refusal::Header)),
            (0x0c, Some(Refusal::Header)),
        ] {
            let mut bytes = vec![0; 30_544];
            bytes[54] = last;
            assert_eq!(refused(set, &bytes), expected, "{last:02x}");
        }
    }

    /// Headers of set 1 that start with a byte, and the values that they
    /// start with. The first byte is P12's.
    #[test]
    fn values_of_a_byte() {
        let set = &SETS[0];
        for (byte, values, shares) in [
            (0x24, [0, 1, 2, 0], 2),
            (0x80, [1, 0, 0, 0], 1),
            (0x40, [2, 0, 0, 0], 1),
            (0x01, [0, 0, 0, 2], 1),
        ] {
            let mut bytes = vec![0; 30_528 + 16 * shares];
            bytes[0] = byte;
            let read = Signature::read(set, &bytes).expect("it has its form");
            assert_eq!(read.values[..4], values, "{byte:02x}");
            assert_eq!(read.values[4..], [0; 215], "{byte:02x}");
        }
    }

    /// 01's example of set 2: the last transcript byte with a low bit set.
    #[test]
    fn example_of_set_2() {
        let set = &SETS[1];
        let mut bytes = vec![0; set.signature_bytes(&[0; 329])];
        assert_eq!(refused(set, &bytes), None);
        for low in [1, 2, 4, 8] {
            bytes[83 + 32 + 48 + 112] = low;
            assert_eq!(refused(set, &bytes), Some(Refusal::Padding), "{low}");
        }
        bytes[83 + 32 + 48 + 112] = 0xf0;
        assert_eq!(refused(set, &bytes), None);
    }

    /// A signature of noise with these values.
    fn signature(set: &Set, values: Vec<u8>) -> Signature {
        of_noise(set, values, &mut Noise::new(7))
    }

    fn mixed(set: &Set) -> Signature {
        signature(set, (0..set.t).map(|k| (k * k % 3) as u8).collect())
    }

    /// Both forms have their lengths and read back as what was written.
    #[test]
    fn what_is_written_reads_back() {
        for set in &SETS {
            for values in [vec![0; set.t], vec![2; set.t], mixed(set).values] {
                let signature = signature(set, values);
                let (bytes, unpacked) = (signature.bytes(), signature.unpacked(set));
                assert_eq!(bytes.len(), set.signature_bytes(&signature.values));
                assert_eq!(unpacked.len(), set.unpacked_bytes());
                assert_eq!(Signature::read(set, &bytes).as_ref(), Ok(&signature));
                assert_eq!(Signature::read_unpacked(set, &unpacked), Ok(signature));
            }
        }
    }

    /// The unpacked form of set 1, field by field, in rounds 0 and 1 of
    /// values 0 and 1.
    #[test]
    fn places_in_the_unpacked_form() {
        let set = &SETS[0];
        let signature = mixed(set);
        let unpacked = signature.unpacked(set);
        let [first, second] = [&signature.openings[0], &signature.openings[1]];
        assert_eq!(signature.values[..2], [0, 1]);
        assert_eq!(unpacked[..219], signature.values);
        assert_eq!(unpacked[219..251], signature.salt);
        assert_eq!(unpacked[251..283], first.commitment);
        assert_eq!(unpacked[283..358], first.transcript);
        assert_eq!(unpacked[358..374], first.seeds[0]);
        assert_eq!(unpacked[374..390], first.seeds[1]);
        assert_eq!(unpacked[390..406], [0; 16]);
        assert_eq!(unpacked[406..438], second.commitment);
        assert_eq!(unpacked[545..561], second.share);
    }

    /// Refusals of an unpacked form, in their order.
    #[test]
    fn unpacked_forms_that_are_refused() {
        for set in &SETS {
            let good = mixed(set).unpacked(set);
            let refused = |change: &dyn Fn(&mut Vec<u8>)| {
                let mut bytes = good.clone();
                change(&mut bytes);
                Signature::read_unpacked(set, &bytes).err()
            };
            let share = set.t + SALT_BYTES + set.round_bytes(0);
            assert_eq!(refused(&|_| ()), None);
            assert_eq!(refused(&|x| x.push(0)), Some(Refusal::WrongLength));
            assert_eq!(refused(&|x| x.truncate(0)), Some(Refusal::WrongLength));
            assert_eq!(refused(&|x| x[set.t - 1] = 3), Some(Refusal::Header));
            assert_eq!(refused(&|x| x[share] = 1), Some(Refusal::Padding));
            assert_eq!(refused(&|x| x[share - 1] ^= 1), None);
            let several = |x: &mut Vec<u8>| (x[share], x[0]) = (1, 255);
            assert_eq!(refused(&several), Some(Refusal::Header));
            let padding = set.t + SALT_BYTES + set.digest_bytes + set.transcript_bytes() - 1;
            let expected = (set.number != 1).then_some(Refusal::Padding);
            assert_eq!(refused(&|x| x[padding] ^= 8), expected);
        }
    }
}
