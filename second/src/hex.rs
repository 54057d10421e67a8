//! Bytes as hexadecimal text.

/// Two lower-case digits for each byte.
pub fn to_hex(bytes: &[u8]) -> String {
    bytes.iter().map(|byte| format!("{byte:02x}")).collect()
}

/// The bytes that a text of digit pairs stands for, in either case of the
/// letters; nothing if the text is anything else.
pub fn from_hex(text: &str) -> Option<Vec<u8>> {
    let digits: Option<Vec<u32>> = text.chars().map(|c| c.to_digit(16)).collect();
    let digits = digits?;
    if digits.len() % 2 != 0 {
        return None;
    }
    Some(
        digits
            .chunks(2)
            .map(|pair| (16 * pair[0] + pair[1]) as u8)
            .collect(),
    )
}

#[cfg(test)]
mod tests {
    use super::*;

    #[test]
    fn hex_is_written_and_read() {
        assert_eq!(to_hex(&[0x00, 0x1b, 0xff]), "001bff");
        assert_eq!(from_hex("001bfF"), Some(vec![0x00, 0x1b, 0xff]));
        assert_eq!(from_hex(""), Some(vec![]));
    }

    #[test]
    fn what_is_not_hex_is_refused() {
        for text in ["0", "001", "0g", "+1", " 00", "00\n", "é0"] {
            assert_eq!(from_hex(text), None, "{text:?}");
        }
    }
}
