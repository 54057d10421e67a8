//! SHAKE128 and SHAKE256 against the Keccak team's known-answer tests, kept
//! in the project's vectors directory.

use std::fs;
use std::path::Path;

use second::hex::from_hex;
use second::shake::{shake, Hash};

/// Every case of a vector file as message and output.
fn read_cases(file: &str) -> Vec<(Vec<u8>, Vec<u8>)> {
    let path = Path::new(env!("CARGO_MANIFEST_DIR"))
        .join("../vectors")
        .join(file);
    let text =
        fs::read_to_string(&path).unwrap_or_else(|error| panic!("{}: {error}", path.display()));
    text.lines()
        .filter(|line| !line.starts_with('#'))
        .map(|line| read_case(line).unwrap_or_else(|| panic!("{file}: not a case: {line}")))
        .collect()
}

fn read_case(line: &str) -> Option<(Vec<u8>, Vec<u8>)> {
    let (message, output) = line.split_once(' ')?;
    let message = if message == "-" { "" } else { message };
    Some((from_hex(message)?, from_hex(output)?))
}

/// The files have one case for each length from 0 to 255 bytes, and 512 bytes
/// of output in each.
fn check_file(file: &str, hash: Hash) {
    let cases = read_cases(file);
    assert_eq!(cases.len(), 256, "{file}: number of cases");
    for (length, (message, output)) in cases.iter().enumerate() {
        assert_eq!(message.len(), length, "{file}: length of a message");
        assert_eq!(output.len(), 512, "{file}: length of an output");
        assert_eq!(shake(hash, message, 512), *output, "{file}: {length} bytes");
    }
}

#[test]
fn shake128_meets_the_published_vectors() {
    check_file("shake128.txt", Hash::Shake128);
}

#[test]
fn shake256_meets_the_published_vectors() {
    check_file("shake256.txt", Hash::Shake256);
}
