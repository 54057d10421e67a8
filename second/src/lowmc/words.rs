//! LowMC once more, on words of 64 bits: as fast as a plain program over lent
//! bytes gets, for long runs and for measuring. The tests hold it against the
//! encryption bit by bit, which is the one to read.

use std::array::from_fn;

use super::{Lowmc, Tables};

/// A string of up to 64·W bits. Bit 0 is the highest bit of word 0, and the
/// bits behind the string's end are zero.
pub(crate) type Block<const W: usize> = [u64; W];

impl Lowmc {
    /// The encryption of a block under a key, as `encrypt` gives it. A block
    /// has at most 256 bits here.
    pub fn encrypt_by_words(&self, tables: &Tables, key: &[u8], block: &[u8]) -> Vec<u8> {
        self.check_lengths(tables, key, block);
        match self.n.div_ceil(64) {
            1 => self.encrypt_in::<1>(tables, key, block),
            2 => self.encrypt_in::<2>(tables, key, block),
            3 => self.encrypt_in::<3>(tables, key, block),
            4 => self.encrypt_in::<4>(tables, key, block),
            _ => panic!("a block of {} bits is too wide for four words", self.n),
        }
    }

    fn encrypt_in<const W: usize>(&self, tables: &Tables, key: &[u8], block: &[u8]) -> Vec<u8> {
        let (key, block) = (self.block::<W>(key), self.block(block));
        self.block_bytes(&self.encrypt_seen(tables, &key, &block, |_| ()))
    }

    /// The encryption of a block. The states before each layer of S-boxes, and
    /// the ciphertext, are shown as they come.
    pub(crate) fn encrypt_seen<const W: usize>(
        &self,
        tables: &Tables,
        key: &Block<W>,
        block: &Block<W>,
        mut show: impl FnMut(Block<W>),
    ) -> Block<W> {
        let firsts = self.firsts::<W>();
        let mut state = xor(self.product(&tables.keys, 0, key), *block);
        show(state);
        for i in 1..=self.r {
            state = substitute(&state, &firsts);
            state = self.product(&tables.layers, i - 1, &state);
            state = xor(state, self.constant_block(&tables.constants, i - 1));
            state = xor(state, self.product(&tables.keys, i, key));
            show(state);
        }
        state
    }

    /// The first bit of each S-box.
    pub(crate) fn firsts<const W: usize>(&self) -> Block<W> {
        let mut block = [0; W];
        for i in 0..self.s {
            block[3 * i / 64] |= 1 << (63 - 3 * i % 64);
        }
        block
    }

    /// The first n bits of a byte string.
    pub(crate) fn block<const W: usize>(&self, bytes: &[u8]) -> Block<W> {
        let mut block = row(&bytes[..self.width()]);
        let padding = 64 * W - self.n;
        block[W - 1] &= u64::MAX << padding;
        block
    }

    /// The bytes of a block.
    pub(crate) fn block_bytes<const W: usize>(&self, block: &Block<W>) -> Vec<u8> {
        let bytes = block.iter().flat_map(|word| word.to_be_bytes());
        bytes.take(self.width()).collect()
    }

    /// Round constant number `index`.
    pub(crate) fn constant_block<const W: usize>(&self, table: &[u8], index: usize) -> Block<W> {
        self.block(&table[index * self.width()..])
    }

    /// The product of matrix number `index` of a table and a vector.
    fn product<const W: usize>(&self, table: &[u8], index: usize, vector: &Block<W>) -> Block<W> {
        let [product] = self.products(table, index, std::array::from_ref(vector));
        product
    }

    /// The products of matrix number `index` of a table and some vectors. Rows
    /// of whole words are by far the most, so these are read in a way of their
    /// own.
    pub(crate) fn products<const W: usize, const N: usize>(
        &self,
        table: &[u8],
        index: usize,
        vectors: &[Block<W>; N],
    ) -> [Block<W>; N] {
        #[cfg(test)]
        crate::work::counted::add(0, N);
        let start = index * self.matrix_bytes();
        let matrix = &table[start..start + self.matrix_bytes()];
        if self.width() == 8 * W {
            parities(matrix.chunks_exact(8 * W).map(whole_row), vectors)
        } else {
            parities(matrix.chunks_exact(self.width()).map(row), vectors)
        }
    }
}

/// For each row, in order, the parity of the row AND each vector. What a row
/// has behind a vector's last bit plays no part, since the vector is zero
/// there.
#[inline(always)]
fn parities<const W: usize, const N: usize>(
    mut rows: impl Iterator<Item = Block<W>>,
    vectors: &[Block<W>; N],
) -> [Block<W>; N] {
    let mut products = [[0; W]; N];
    for word in 0..W {
        for (place, row) in (0..64).rev().zip(&mut rows) {
            for (product, vector) in products.iter_mut().zip(vectors) {
                let common = (0..W).fold(0, |sum, i| sum ^ (row[i] & vector[i]));
                product[word] |= u64::from(common.count_ones() & 1) << place;
            }
        }
    }
    products
}

/// The words of 8·W bytes.
#[inline(always)]
fn whole_row<const W: usize>(bytes: &[u8]) -> Block<W> {
    from_fn(|i| {
        let eight = &bytes[8 * i..8 * i + 8];
        u64::from_be_bytes(eight.try_into().expect("these are eight"))
    })
}

/// The words of at most 8·W bytes, with zeros behind them.
fn row<const W: usize>(bytes: &[u8]) -> Block<W> {
    let mut words = [0; W];
    for (i, &byte) in bytes.iter().enumerate() {
        words[i / 8] |= u64::from(byte) << (56 - 8 * (i % 8));
    }
    words
}

pub(crate) fn xor<const W: usize>(x: Block<W>, y: Block<W>) -> Block<W> {
    from_fn(|i| x[i] ^ y[i])
}

/// The string with its bits moved `by` places to the front, by 1 to 63.
pub(crate) fn forward<const W: usize>(x: &Block<W>, by: usize) -> Block<W> {
    let next = |i| if i + 1 < W { x[i + 1] } else { 0 };
    from_fn(|i| x[i] << by | next(i) >> (64 - by))
}

/// The string with its bits moved `by` places to the back, by 1 to 63.
pub(crate) fn back<const W: usize>(x: &Block<W>, by: usize) -> Block<W> {
    let last = |i| if i > 0 { x[i - 1] } else { 0 };
    from_fn(|i| x[i] >> by | last(i) << (64 - by))
}

/// All S-boxes at once: the bits c, b and a of each are brought to its first
/// place, which `firsts` marks, and the new ones are taken back to theirs.
fn substitute<const W: usize>(state: &Block<W>, firsts: &Block<W>) -> Block<W> {
    let second = forward(state, 1);
    let third = forward(state, 2);
    let (mut new_a, mut new_b, mut new_c) = ([0; W], [0; W], [0; W]);
    for i in 0..W {
        let (c, b, a) = (
            state[i] & firsts[i],
            second[i] & firsts[i],
            third[i] & firsts[i],
        );
        new_a[i] = a ^ (b & c);
        new_b[i] = a ^ b ^ (c & a);
        new_c[i] = a ^ b ^ c ^ (a & b);
    }
    let inside = three_places(firsts, firsts, firsts);
    let new = three_places(&new_c, &new_b, &new_a);
    from_fn(|i| state[i] & !inside[i] | new[i])
}

/// Bits that stand at first places, the second string's moved to the second
/// places and the third string's to the third.
pub(crate) fn three_places<const W: usize>(
    first: &Block<W>,
    second: &Block<W>,
    third: &Block<W>,
) -> Block<W> {
    let (second, third) = (back(second, 1), back(third, 2));
    from_fn(|i| first[i] | second[i] | third[i])
}

#[cfg(test)]
mod tests {
    use super::*;
    use crate::bits::{from_bytes, to_bytes};
    use crate::noise::Noise;

    /// Ciphers at and beside the ends of words and bytes, and those of every
    /// set. S-boxes lie across the ends of words in some.
    const CIPHERS: [(usize, usize, usize); 20] = [
        (1, 0, 1),
        (3, 1, 1),
        (8, 2, 3),
        (9, 3, 0),
        (61, 20, 2),
        (63, 21, 2),
        (64, 21, 3),
        (65, 21, 2),
        (66, 22, 3),
        (127, 42, 2),
        (128, 10, 20),
        (128, 42, 2),
        (129, 43, 4),
        (191, 63, 2),
        (192, 10, 30),
        (192, 64, 4),
        (193, 64, 2),
        (255, 85, 4),
        (256, 10, 38),
        (256, 85, 2),
    ];

    /// Tables of noise, in the rows' padding too.
    fn noise_tables(cipher: &Lowmc, noise: &mut Noise) -> Tables {
        Tables {
            keys: noise.bytes((cipher.r + 1) * cipher.matrix_bytes()),
            layers: noise.bytes(cipher.r * cipher.matrix_bytes()),
            constants: noise.bytes(cipher.r * cipher.width()),
        }
    }

    #[test]
    fn encryption_by_words_is_that_by_bits() {
        let mut noise = Noise::new(1);
        for (n, s, r) in CIPHERS {
            let cipher = Lowmc::new(n, s, r).unwrap();
            for _ in 0..3 {
                let tables = noise_tables(&cipher, &mut noise);
                let key = noise.bytes(cipher.width());
                let block = noise.bytes(cipher.width());
                let by_bits = cipher.encrypt(&tables, &key, &block);
                let by_words = cipher.encrypt_by_words(&tables, &key, &block);
                assert_eq!(by_words, by_bits, "{cipher:?}");
            }
        }
    }

    #[test]
    fn sboxes_on_words_are_those_on_bits() {
        let mut noise = Noise::new(2);
        for s in 0..=64 {
            let cipher = Lowmc::new(192, s, 1).unwrap();
            let bytes = noise.bytes(24);
            let mut bits = from_bytes(&bytes, 192);
            cipher.substitute(&mut bits);
            let words: Block<3> = substitute(&row(&bytes), &cipher.firsts());
            let expected: Block<3> = row(&to_bytes(&bits));
            assert_eq!(words, expected, "{s} S-boxes");
        }
    }

    #[test]
    fn bytes_become_words_highest_first() {
        let words: Block<2> = row(&[1, 2, 3, 4, 5, 6, 7, 8, 9]);
        assert_eq!(words, [0x0102_0304_0506_0708, 0x0900_0000_0000_0000]);
        let bytes: Vec<u8> = (1..=16).collect();
        assert_eq!(row::<2>(&bytes), whole_row(&bytes));
        assert_eq!(row::<2>(&bytes)[1], 0x090a_0b0c_0d0e_0f10);
    }

    #[test]
    fn bits_move_across_words() {
        let x = [0x8000_0000_0000_0003, 0xc000_0000_0000_0001];
        assert_eq!(
            forward(&x, 1),
            [0x0000_0000_0000_0007, 0x8000_0000_0000_0002]
        );
        assert_eq!(
            forward(&x, 2),
            [0x0000_0000_0000_000f, 0x0000_0000_0000_0004]
        );
        assert_eq!(back(&x, 1), [0x4000_0000_0000_0001, 0xe000_0000_0000_0000]);
        assert_eq!(back(&x, 2), [0x2000_0000_0000_0000, 0xf000_0000_0000_0000]);
    }

    #[test]
    #[should_panic(expected = "too wide")]
    fn wider_blocks_are_refused() {
        let cipher = Lowmc::new(257, 1, 0).unwrap();
        let tables = noise_tables(&cipher, &mut Noise::new(3));
        cipher.encrypt_by_words(&tables, &[0; 33], &[0; 33]);
    }
}
