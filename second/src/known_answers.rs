//! Known answers of signing, in the form in which Picnic's are published:
//! lines `count`, `seed`, `mlen`, `msg`, `pk`, `sk`, `smlen` and `sm`, each a
//! name, ` = ` and a value. Both keys start with a byte that tells the set, and
//! the secret one ends with the public one. `sm` is the signature's length in
//! four bytes, low byte first, the message and the signature.

use std::collections::BTreeMap;

use crate::answers::Refusal;
use crate::hashing::derived_seeds;
use crate::hex::{from_hex, to_hex};
use crate::lowmc::Tables;
use crate::noise::Noise;
use crate::picnic::Statement;
use crate::sets::{Set, HIGHEST_BLOCK_LIMIT, SETS};

/// A key pair, a message and its signature with derived seeds over the drawn
/// tables.
#[derive(Clone, Debug, PartialEq, Eq)]
pub struct Answer {
    /// The set.
    pub set: &'static Set,
    /// The answer's number in its file.
    pub count: usize,
    /// The secret key.
    pub secret: Vec<u8>,
    /// The public key: ciphertext, then plaintext block.
    pub public: Vec<u8>,
    /// The message.
    pub message: Vec<u8>,
    /// The signature.
    pub signature: Vec<u8>,
}

/// The byte that tells a set. Between them are the sets of another proof.
fn set_byte(set: &Set) -> u8 {
    2 * set.number as u8 - 1
}

/// The answers of a file.
pub fn read(text: &str) -> Result<Vec<Answer>, String> {
    let mut answers = Vec::new();
    let mut fields = BTreeMap::new();
    for line in text.lines().filter(|line| !line.starts_with('#')) {
        let Some((name, value)) = line.split_once(" = ") else {
            continue;
        };
        fields.insert(name, value);
        if name == "sm" {
            answers.push(answer(&fields)?);
            fields.clear();
        }
    }
    Ok(answers)
}

/// The answer that fields stand for.
fn answer(fields: &BTreeMap<&str, &str>) -> Result<Answer, String> {
    let count = fields.get("count").copied().unwrap_or("without a count");
    let wrong = |what: &str| format!("answer {count}: {what}");
    let text = |name: &str| fields.get(name).ok_or_else(|| wrong(&format!("no {name}")));
    let number = |name: &str| text(name)?.parse::<usize>().map_err(|_| wrong(name));
    let bytes = |name: &str| from_hex(text(name)?).ok_or_else(|| wrong(name));
    let (public, secret) = (bytes("pk")?, bytes("sk")?);
    let (message, signed) = (bytes("msg")?, bytes("sm")?);
    let set = SETS
        .iter()
        .find(|set| public.first() == Some(&set_byte(set)));
    let set = set.ok_or_else(|| wrong("the keys of another set"))?;
    let (w, head) = (set.width(), 4 + message.len());
    let fits = public.len() == 1 + 2 * w
        && secret.len() == 1 + 3 * w
        && secret[0] == public[0]
        && secret[1 + w..] == public[1..]
        && message.len() == number("mlen")?
        && signed.len() == number("smlen")?
        && signed.len() >= head
        && signed[..4] == ((signed.len() - head) as u32).to_le_bytes()
        && signed[4..head] == message;
    if !fits {
        return Err(wrong("its parts do not fit together"));
    }
    Ok(Answer {
        set,
        count: number("count")?,
        secret: secret[1..1 + w].into(),
        public: public[1..].into(),
        message,
        signature: signed[head..].into(),
    })
}

/// The file of some answers.
pub fn write(answers: &[Answer]) -> String {
    let mut text = String::from("# Picnic signatures, made by the second program.\n");
    for answer in answers {
        let set = [set_byte(answer.set)];
        let length = (answer.signature.len() as u32).to_le_bytes();
        let public = [&set[..], &answer.public].concat();
        let secret = [&set[..], &answer.secret, &answer.public].concat();
        let signed = [&length[..], &answer.message, &answer.signature].concat();
        for (name, value) in [
            ("count", answer.count.to_string()),
            ("seed", String::new()),
            ("mlen", answer.message.len().to_string()),
            ("msg", to_hex(&answer.message)),
            ("pk", to_hex(&public)),
            ("sk", to_hex(&secret)),
            ("smlen", signed.len().to_string()),
            ("sm", to_hex(&signed)),
        ] {
            text += &format!("{name} = {value}\n");
        }
        text += "\n";
    }
    text
}

/// Answers of this program, with random keys and messages of 33, 66 bytes and
/// so on.
pub fn own(set: &'static Set, count: usize) -> Vec<Answer> {
    let mut noise = Noise::new(set.number);
    (0..count)
        .map(|count| {
            let (secret, block) = (noise.bytes(set.width()), noise.bytes(set.width()));
            let tables = set.lowmc().tables();
            let ciphertext = set.lowmc().encrypt(&tables, &secret, &block);
            let mut answer = Answer {
                set,
                count,
                secret,
                public: [ciphertext, block].concat(),
                message: noise.bytes(33 * (count + 1)),
                signature: vec![],
            };
            answer.signature = answer.sign().expect("nothing is wrong with it");
            answer
        })
        .collect()
}

impl Answer {
    /// The seeds that the message is signed with.
    pub fn seeds(&self) -> Vec<u8> {
        derived_seeds(self.set, &self.secret, &self.public, &self.message)
    }

    /// The signature that this program makes of the message.
    pub fn sign(&self) -> Result<Vec<u8>, Refusal> {
        let tables = self.set.lowmc().tables();
        self.statement(&tables).sign(&self.secret, &self.seeds())
    }

    /// Verifies the signature.
    pub fn verify(&self) -> Result<(), Refusal> {
        let tables = self.set.lowmc().tables();
        self.statement(&tables).verify(&self.signature)
    }

    fn statement<'a>(&'a self, tables: &'a Tables) -> Statement<'a> {
        Statement {
            set: self.set,
            tables,
            public: &self.public,
            message: &self.message,
            limit: HIGHEST_BLOCK_LIMIT as u64,
        }
    }
}

#[cfg(test)]
mod tests {
    use super::*;
    use crate::hashing::kdf;

    /// Short hashes of two signatures of each set. The expected ones were
    /// computed once by a plain transcription of sections 6.2 and 6.4 of 001,
    /// with the rules of 01 as 02 mends them, into Python over hashlib, which
    /// took the keys and messages from here. It signs as the partner's program
    /// does, in every answer of ../vectors/partner.
    #[test]
    fn own_answers_are_those_of_a_transcription_in_python() {
        let expected = [
            "b552bc27bfc9ed59 a1e7ae319babdc8d",
            "3a56adcb839d38af 8ad3a830da142b62",
            "14a102d76a222298 8ee3a194c6064a49",
        ];
        for (set, expected) in SETS.iter().zip(expected) {
            let answers = own(set, 2);
            let marks: Vec<String> = answers
                .iter()
                .map(|answer| to_hex(&kdf(set, &[&answer.signature], 8)))
                .collect();
            assert_eq!(marks.join(" "), expected, "{}", set.name);
        }
    }

    /// The published files have upper-case letters in their hex.
    #[test]
    fn upper_case_is_read_too() {
        let answers = own(&SETS[0], 1);
        let line = |line: &str| match line.split_once(" = ") {
            Some((name, value)) => format!("{name} = {}\n", value.to_uppercase()),
            None => format!("{line}\n"),
        };
        let upper: String = write(&answers).lines().map(line).collect();
        assert!(upper.contains("A") && upper != write(&answers));
        assert_eq!(read(&upper), Ok(answers));
    }

    #[test]
    fn what_is_written_reads_back() {
        let answers = own(&SETS[0], 2);
        assert_eq!(read(&write(&answers)), Ok(answers));
        assert_eq!(read(""), Ok(vec![]));
    }

    /// One part changed at a time.
    #[test]
    fn answers_that_do_not_fit_are_refused() {
        let text = write(&own(&SETS[0], 1));
        for (from, to) in [
            ("count = 0", "count = x"),
            ("mlen = 33", "mlen = 34"),
            ("smlen = ", "smlen = 1"),
            ("pk = 01", "pk = 02"),
            ("sk = 01", "sk = 03"),
            ("pk = ", "pk = 0"),
            ("msg = ", "msg = 00"),
            ("sm = ", "sm = 00"),
            ("sk = ", "key = "),
        ] {
            assert!(text.contains(from), "{from}");
            assert!(read(&text.replacen(from, to, 1)).is_err(), "{to}");
        }
    }
}
