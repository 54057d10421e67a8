//! Known answers as calls: forming the public key, signing and verifying.
//! What a call must write is what the answers have; nothing but the seeds is
//! computed here.

use std::collections::BTreeSet;

use super::tables::{Contents, LentTables};
use super::{Argument, Call, Piece, Sheet};
use crate::answers::done;
use crate::known_answers::Answer;
use crate::sets::HIGHEST_BLOCK_LIMIT;

fn hex(bytes: &[u8]) -> Vec<Piece> {
    vec![Piece::Hex(bytes.into())]
}

fn input(bytes: &[u8]) -> Argument {
    Argument::Input(hex(bytes))
}

/// The set and the tables, which each of the calls takes first.
fn first_arguments(sheet: &Sheet, answer: &Answer) -> Vec<Argument> {
    let tables = LentTables::lend(sheet, "real", answer.set);
    let mut arguments = vec![Argument::Number(answer.set.number)];
    arguments.extend(tables.arguments(sheet));
    arguments
}

fn public_key(sheet: &Sheet, answer: &Answer) -> Call {
    let mut arguments = first_arguments(sheet, answer);
    arguments.push(input(&answer.secret));
    arguments.push(input(&answer.public[answer.set.width()..]));
    Call::with_output(
        label("public_key", answer),
        "picnic_public_key",
        arguments,
        answer.public.len(),
        Ok(answer.public.clone()),
    )
}

fn room(answer: &Answer) -> Argument {
    let length = answer.set.room_bytes();
    let start = vec![Piece::Zeros(length)];
    Argument::Written { length, start }
}

fn sign(sheet: &Sheet, answer: &Answer) -> Call {
    let mut arguments = first_arguments(sheet, answer);
    arguments.extend([
        input(&answer.secret),
        input(&answer.public),
        input(&answer.message),
        Argument::Number(HIGHEST_BLOCK_LIMIT as u64),
        input(&answer.seeds()),
        room(answer),
    ]);
    Call::with_output(
        label("sign", answer),
        "picnic_sign",
        arguments,
        answer.set.longest_signature(),
        Ok(answer.signature.clone()),
    )
}

fn verify(sheet: &Sheet, answer: &Answer) -> Call {
    let mut arguments = first_arguments(sheet, answer);
    arguments.extend([
        input(&answer.public),
        input(&answer.message),
        Argument::Number(HIGHEST_BLOCK_LIMIT as u64),
        room(answer),
        input(&answer.signature),
    ]);
    Call {
        label: label("verify", answer),
        function: "picnic_verify",
        arguments,
        answer: done(0),
    }
}

fn label(what: &str, answer: &Answer) -> String {
    format!("{what}-known-set{}-{}", answer.set.number, answer.count)
}

/// The file of calls of some answers.
pub fn sheet(answers: &[Answer]) -> Sheet {
    let mut sheet = Sheet::default();
    let mut sets = BTreeSet::new();
    for answer in answers {
        if sets.insert(answer.set.number) {
            LentTables::define(&mut sheet, "real", answer.set, Contents::Real);
        }
        for call in [public_key, sign, verify] {
            let call = call(&sheet, answer);
            sheet.add(call);
        }
    }
    sheet
}

#[cfg(test)]
mod tests {
    use super::*;
    use crate::known_answers::own;
    use crate::sets::SETS;

    #[test]
    fn each_answer_is_three_calls() {
        let answers = own(&SETS[0], 2);
        let sheet = sheet(&answers);
        let functions: Vec<&str> = sheet.calls().iter().map(|call| call.function).collect();
        let three = ["picnic_public_key", "picnic_sign", "picnic_verify"];
        assert_eq!(functions, [three, three].concat());
        let (_, length, start) = sheet.ends(&sheet.calls()[4]);
        assert_eq!((length, start), (34_032, answers[1].signature.clone()));
    }
}
