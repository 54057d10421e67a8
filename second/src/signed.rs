//! Signatures of another program, known by their digests. A line has the
//! number of a set, secret key, C, p and message in hex, the signature's length
//! in bytes and its SHA-256 in hex, parted by spaces. A line that starts with #
//! is a comment.
//!
//! Each message is signed here, with derived seeds over the drawn tables, and
//! the signature is held against its line.

use crate::answers::Refusal;
use crate::hex::{from_hex, to_hex};
use crate::known_answers::Answer;
use crate::sets::{Set, LONGEST_MESSAGE};
use crate::sha256::{sha256, DIGEST_BYTES};

/// What a line says.
struct Line {
    set: &'static Set,
    secret: Vec<u8>,
    public: Vec<u8>,
    message: Vec<u8>,
    length: usize,
    digest: Vec<u8>,
}

/// The bytes of a field, of which there must be so many.
fn bytes(name: &str, text: &str, length: usize) -> Result<Vec<u8>, String> {
    from_hex(text)
        .filter(|bytes| bytes.len() == length)
        .ok_or_else(|| format!("{name}: {length} bytes in hex are wanted"))
}

/// The message of a line, which must be one that is signed.
fn message(text: &str) -> Result<Vec<u8>, String> {
    let message = from_hex(text).ok_or("the message is not in hex")?;
    match message.len() {
        1..=LONGEST_MESSAGE => Ok(message),
        length => Err(format!("a message of {length} bytes is not signed")),
    }
}

fn line(text: &str) -> Result<Line, String> {
    let fields: Vec<&str> = text.split_whitespace().collect();
    let [set, secret, c, p, signed, length, digest] = fields[..] else {
        return Err(format!("{} fields, not seven", fields.len()));
    };
    let known = set.parse().ok().and_then(Set::by_number);
    let set = known.ok_or_else(|| format!("there is no set {set}"))?;
    let public = [bytes("C", c, set.width())?, bytes("p", p, set.width())?];
    Ok(Line {
        set,
        secret: bytes("the secret key", secret, set.width())?,
        public: public.concat(),
        message: message(signed)?,
        length: length
            .parse()
            .map_err(|_| format!("{length:?} is no length"))?,
        digest: bytes("the digest", digest, DIGEST_BYTES)?,
    })
}

impl Line {
    /// The line's answer, whose signature is made here and is the line's.
    fn signed(self, count: usize) -> Result<Answer, String> {
        let mut answer = Answer {
            set: self.set,
            count,
            secret: self.secret,
            public: self.public,
            message: self.message,
            signature: vec![],
        };
        answer.signature = answer.sign().map_err(|refusal| match refusal {
            Refusal::Pair => String::from("C is not the encryption of p"),
            other => format!("signing is refused with {}", other.number()),
        })?;
        let (length, digest) = (answer.signature.len(), sha256(&answer.signature));
        if length != self.length {
            return Err(format!("the signature has {length} bytes here"));
        }
        if digest != self.digest {
            return Err(format!(
                "the signature's SHA-256 is {} here",
                to_hex(&digest)
            ));
        }
        Ok(answer)
    }
}

/// The answers of all lines, counted from 0; or what is wrong with a line,
/// which is named by its number in the text, from 1.
pub fn answers(text: &str) -> Result<Vec<Answer>, String> {
    let lines = (1..).zip(text.lines());
    let lines = lines.filter(|(_, text)| !text.is_empty() && !text.starts_with('#'));
    lines
        .enumerate()
        .map(|(count, (number, text))| {
            let signed = line(text).and_then(|line| line.signed(count));
            signed.map_err(|what| format!("line {number}: {what}"))
        })
        .collect()
}

#[cfg(test)]
mod tests {
    use super::*;
    use crate::known_answers::own;
    use crate::sets::SETS;

    /// The fields of an answer's line.
    fn fields(answer: &Answer) -> [String; 7] {
        let (c, p) = answer.public.split_at(answer.set.width());
        [
            answer.set.number.to_string(),
            to_hex(&answer.secret),
            to_hex(c),
            to_hex(p),
            to_hex(&answer.message),
            answer.signature.len().to_string(),
            to_hex(&sha256(&answer.signature)),
        ]
    }

    /// Answers of two sets come back, numbered anew.
    #[test]
    fn lines_are_signed_as_their_answers() {
        let mut expected = [own(&SETS[0], 2), own(&SETS[1], 1)].concat();
        let mut text = String::from("# a comment\n");
        for (count, answer) in expected.iter_mut().enumerate() {
            text += &format!("{}\n", fields(answer).join(" "));
            answer.count = count;
        }
        assert_eq!(answers(&text), Ok(expected));
        assert_eq!(answers("# a comment\n\n"), Ok(vec![]));
    }

    /// One field changed at a time, in the second line of three.
    #[test]
    fn lines_that_do_not_hold_are_refused() {
        let good = fields(&own(&SETS[0], 1)[0]);
        let other = |text: &str| match text.as_bytes()[0] {
            b'0' => format!("1{}", &text[1..]),
            _ => format!("0{}", &text[1..]),
        };
        let longer = |text: &str| format!("{text}00");
        let digest = &good[6];
        for (field, changed, what) in [
            (0, "4".into(), "there is no set 4"),
            (0, "x".into(), "there is no set x"),
            (0, "2".into(), "C: 24 bytes in hex are wanted"),
            (1, other(&good[1]), "C is not the encryption of p"),
            (2, other(&good[2]), "C is not the encryption of p"),
            (3, other(&good[3]), "C is not the encryption of p"),
            (
                1,
                longer(&good[1]),
                "the secret key: 16 bytes in hex are wanted",
            ),
            (2, longer(&good[2]), "C: 16 bytes in hex are wanted"),
            (3, longer(&good[3]), "p: 16 bytes in hex are wanted"),
            (4, "0".into(), "the message is not in hex"),
            (4, "".into(), "6 fields, not seven"),
            (
                4,
                "00".repeat(LONGEST_MESSAGE + 1),
                "a message of 1048577 bytes is not signed",
            ),
            (
                5,
                "30528".into(),
                &format!("the signature has {} bytes here", good[5]),
            ),
            (5, "-1".into(), "\"-1\" is no length"),
            (
                6,
                other(digest),
                &format!("the signature's SHA-256 is {digest} here"),
            ),
            (6, longer(digest), "the digest: 32 bytes in hex are wanted"),
            (6, format!("{digest} 1"), "8 fields, not seven"),
        ] {
            let mut fields = good.clone();
            fields[field] = changed;
            let text = format!("# a comment\n{}\n{}\n", fields.join(" "), good.join(" "));
            assert_eq!(answers(&text), Err(format!("line 2: {what}")), "{field}");
        }
    }

    /// A message of another line gives another signature.
    #[test]
    fn another_message_is_refused() {
        let mut fields = fields(&own(&SETS[0], 1)[0]);
        fields[4] = "00".into();
        assert!(answers(&fields.join(" ")).is_err());
    }
}
