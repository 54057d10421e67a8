//! Bit strings and the bytes that hold them.
//!
//! Bit 0 is the highest bit of byte 0, bit 7 its lowest, bit 8 the highest of
//! byte 1. A string that does not fill its last byte is padded with zero bits.

/// The number of bytes that hold this many bits.
pub const fn width(bits: usize) -> usize {
    bits.div_ceil(8)
}

/// Bit number `i` of a byte string.
pub fn bit(bytes: &[u8], i: usize) -> bool {
    (bytes[i / 8] >> (7 - i % 8)) & 1 == 1
}

/// The first `n` bits of a byte string.
pub fn from_bytes(bytes: &[u8], n: usize) -> Vec<bool> {
    (0..n).map(|i| bit(bytes, i)).collect()
}

/// The bytes that hold these bits, with zero padding.
pub fn to_bytes(bits: &[bool]) -> Vec<u8> {
    let mut bytes = vec![0; width(bits.len())];
    for (i, &bit) in bits.iter().enumerate() {
        bytes[i / 8] |= u8::from(bit) << (7 - i % 8);
    }
    bytes
}

#[cfg(test)]
mod tests {
    use super::*;

    #[test]
    fn width_rounds_up_to_whole_bytes() {
        let pairs = [(0, 0), (1, 1), (8, 1), (9, 2), (128, 16), (129, 17)];
        for (bits, bytes) in pairs {
            assert_eq!(width(bits), bytes, "{bits} bits");
        }
    }

    #[test]
    fn bit_0_is_the_highest_bit_of_byte_0() {
        let set_bits = |bytes: &[u8]| -> Vec<usize> {
            (0..8 * bytes.len()).filter(|&i| bit(bytes, i)).collect()
        };
        assert_eq!(set_bits(&[0x80, 0x00]), [0]);
        assert_eq!(set_bits(&[0x01, 0x80]), [7, 8]);
        assert_eq!(set_bits(&[0x00, 0x41]), [9, 15]);
    }

    #[test]
    fn bits_go_into_bytes_and_back() {
        let bits = [true, false, true, true, false, false, false, true, true];
        assert_eq!(to_bytes(&bits), [0xb1, 0x80]);
        assert_eq!(from_bytes(&[0xb1, 0x80], 9), bits);
        assert_eq!(from_bytes(&[0xb1, 0xff], 9), bits, "padding is not read");
    }
}
