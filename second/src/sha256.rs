//! SHA-256, by FIPS 180-4. Picnic has no use for it; files of known answers
//! give long signatures by it.

/// Bytes of a block.
const BLOCK: usize = 64;

/// Bytes of a digest.
pub const DIGEST_BYTES: usize = 32;

/// The first primes.
fn primes() -> impl Iterator<Item = u128> {
    (2..).filter(|&n| (2..n).all(|divisor| n % divisor != 0))
}

/// The first 32 bits behind the point of the root of this degree, 2 or 3, of a
/// small number.
fn root_bits(degree: u32, number: u128) -> u32 {
    let scaled = number << (32 * degree);
    let root = (0..36).rev().fold(0_u128, |root, bit| {
        let next = root | 1 << bit;
        if next.pow(degree) <= scaled {
            next
        } else {
            root
        }
    });
    root as u32
}

/// Such words of the first primes.
fn words<const N: usize>(degree: u32) -> [u32; N] {
    let mut primes = primes();
    [(); N].map(|()| root_bits(degree, primes.next().expect("primes have no end")))
}

/// The message, a bit one, zeros, and the message's length in bits, to whole
/// blocks.
fn padded(message: &[u8]) -> Vec<u8> {
    let mut bytes = message.to_vec();
    bytes.push(0x80);
    while bytes.len() % BLOCK != BLOCK - 8 {
        bytes.push(0);
    }
    bytes.extend((8 * message.len() as u64).to_be_bytes());
    bytes
}

/// The 64 words that a block is spread to.
fn schedule(block: &[u8]) -> [u32; 64] {
    let mut w = [0; 64];
    for (word, bytes) in w.iter_mut().zip(block.chunks(4)) {
        *word = bytes
            .iter()
            .fold(0, |word, &byte| word << 8 | u32::from(byte));
    }
    for t in 16..64 {
        let (x, y) = (w[t - 15], w[t - 2]);
        let small_0 = x.rotate_right(7) ^ x.rotate_right(18) ^ (x >> 3);
        let small_1 = y.rotate_right(17) ^ y.rotate_right(19) ^ (y >> 10);
        w[t] = sum(&[small_1, w[t - 7], small_0, w[t - 16]]);
    }
    w
}

/// The sum modulo 2^32.
fn sum(words: &[u32]) -> u32 {
    words.iter().fold(0, |sum, &word| sum.wrapping_add(word))
}

/// The hash value after one more block.
fn compress(value: [u32; 8], block: &[u8], k: &[u32; 64]) -> [u32; 8] {
    let w = schedule(block);
    let [mut a, mut b, mut c, mut d, mut e, mut f, mut g, mut h] = value;
    for t in 0..64 {
        let big_1 = e.rotate_right(6) ^ e.rotate_right(11) ^ e.rotate_right(25);
        let choice = (e & f) ^ (!e & g);
        let t1 = sum(&[h, big_1, choice, k[t], w[t]]);
        let big_0 = a.rotate_right(2) ^ a.rotate_right(13) ^ a.rotate_right(22);
        let majority = (a & b) ^ (a & c) ^ (b & c);
        let t2 = sum(&[big_0, majority]);
        (h, g, f, e) = (g, f, e, sum(&[d, t1]));
        (d, c, b, a) = (c, b, a, sum(&[t1, t2]));
    }
    let mut next = [a, b, c, d, e, f, g, h];
    for (word, before) in next.iter_mut().zip(value) {
        *word = sum(&[*word, before]);
    }
    next
}

/// The digest of a message.
pub fn sha256(message: &[u8]) -> Vec<u8> {
    let k: [u32; 64] = words(3);
    let blocks = padded(message);
    let value = blocks
        .chunks(BLOCK)
        .fold(words(2), |value, block| compress(value, block, &k));
    value.iter().flat_map(|word| word.to_be_bytes()).collect()
}

#[cfg(test)]
mod tests {
    use super::*;
    use crate::hex::to_hex;

    /// First and last of the words that FIPS 180-4 prints.
    #[test]
    fn constants_are_those_printed() {
        let (first, k): ([u32; 8], [u32; 64]) = (words(2), words(3));
        assert_eq!(first[..2], [0x6a09_e667, 0xbb67_ae85]);
        assert_eq!(first[6..], [0x1f83_d9ab, 0x5be0_cd19]);
        assert_eq!(k[..2], [0x428a_2f98, 0x7137_4491]);
        assert_eq!(k[62..], [0xbef9_a3f7, 0xc671_78f2]);
    }

    /// The examples that go with the standard.
    #[test]
    fn published_digests() {
        let two_blocks = "abcdbcdecdefdefgefghfghighijhijkijkljklmklmnlmnomnopnopq";
        for (message, expected) in [
            (
                "",
                "e3b0c44298fc1c149afbf4c8996fb92427ae41e4649b934ca495991b7852b855",
            ),
            (
                "abc",
                "ba7816bf8f01cfea414140de5dae2223b00361a396177a9cb410ff61f20015ad",
            ),
            (
                two_blocks,
                "248d6a61d20638b8e5c026930c3e6039a33ce45964ff2167f6ecedd419db06c1",
            ),
        ] {
            assert_eq!(to_hex(&sha256(message.as_bytes())), expected, "{message}");
        }
    }

    /// Lengths at which the padding just fits a block, and does not, and whole
    /// blocks: hashlib.sha256(bytes(i % 256 for i in range(n))).hexdigest() in
    /// Python.
    #[test]
    fn lengths_beside_the_ends_of_blocks() {
        for (n, expected) in [
            (
                55,
                "463eb28e72f82e0a96c0a4cc53690c571281131f672aa229e0d45ae59b598b59",
            ),
            (
                56,
                "da2ae4d6b36748f2a318f23e7ab1dfdf45acdc9d049bd80e59de82a60895f562",
            ),
            (
                64,
                "fdeab9acf3710362bd2658cdc9a29e8f9c757fcf9811603a8c447cd1d9151108",
            ),
            (
                119,
                "da18797ed7c3a777f0847f429724a2d8cd5138e6ed2895c3fa1a6d39d18f7ec6",
            ),
            (
                120,
                "f52b23db1fbb6ded89ef42a23ce0c8922c45f25c50b568a93bf1c075420bbb7c",
            ),
            (
                1000,
                "a8af099bf2e878609558dbf69d8f88f4a31040a8cf84b549a0cfa912f12ffc3f",
            ),
        ] {
            let message: Vec<u8> = (0..n).map(|i| (i % 256) as u8).collect();
            assert_eq!(to_hex(&sha256(&message)), expected, "{n} bytes");
        }
    }
}
