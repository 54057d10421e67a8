//! A partner's known answers, kept in the project's vectors directory: what
//! another program signed with derived seeds over the drawn tables is what this
//! one signs, and this one takes it.

use std::fs;
use std::path::Path;

use second::known_answers::{read, Answer};
use second::sets::SETS;
use second::signed;

fn text(file: &str) -> String {
    let path = Path::new(env!("CARGO_MANIFEST_DIR"))
        .join("../vectors/partner")
        .join(file);
    fs::read_to_string(&path).unwrap_or_else(|error| panic!("{}: {error}", path.display()))
}

/// The answer of a set that is there in full.
fn full(set: usize) -> Answer {
    let answers = read(&text(&format!("{}.rsp", SETS[set].name)));
    let [answer] = &answers.expect("the file has the published form")[..] else {
        panic!("a file has one answer");
    };
    answer.clone()
}

/// Byte for byte, in each set.
#[test]
fn answers_in_full_are_signed_alike() {
    for (number, set) in SETS.iter().enumerate() {
        let answer = full(number);
        assert_eq!(answer.set, set);
        assert!(
            answer.sign().as_ref() == Ok(&answer.signature),
            "{}",
            set.name
        );
    }
}

/// As they are; with a bit of the message turned they are refused.
#[test]
fn answers_in_full_are_valid() {
    for (number, set) in SETS.iter().enumerate() {
        let mut answer = full(number);
        assert_eq!(answer.verify(), Ok(()), "{}", set.name);
        answer.message[0] ^= 1;
        assert!(answer.verify().is_err(), "{}", set.name);
    }
}

/// Each line is signed with its length and its digest, or there would be no
/// answers; twelve are of each set, and the first is the one in full.
#[test]
fn answers_by_digest_are_signed_alike_and_valid() {
    let answers = signed::answers(&text("digests.txt"));
    let answers = answers.unwrap_or_else(|what| panic!("digests.txt, {what}"));
    assert_eq!(answers.len(), 36);
    for (number, set) in SETS.iter().enumerate() {
        let of_set: Vec<&Answer> = answers.iter().filter(|answer| answer.set == set).collect();
        assert_eq!(of_set.len(), 12, "{}", set.name);
        for answer in &of_set {
            assert_eq!(answer.verify(), Ok(()), "{}, {}", set.name, answer.count);
        }
        assert!(
            of_set[0].signature == full(number).signature,
            "{}",
            set.name
        );
    }
}
