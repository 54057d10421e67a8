//! LowMC: the tables drawn by the rule of the LowMC reference, and the cipher
//! over tables of any contents.
//!
//! Tables are byte strings. A matrix is written row by row, each row in as
//! many bytes as hold n bits, and a round constant is one such row. Bits are
//! handled one by one, as `bool`; the module `words` has the same cipher on
//! words, for speed.

pub(crate) mod words;

use std::collections::BTreeMap;
use std::sync::{Arc, Mutex};

use crate::bits::{from_bytes, to_bytes, width};

/// A string of bits, bit 0 first.
type Bits = Vec<bool>;

/// The numbers of a cipher: n bits a block and a key, s S-boxes a round, r
/// rounds.
#[derive(Clone, Copy, Debug, PartialEq, Eq)]
pub struct Lowmc {
    n: usize,
    s: usize,
    r: usize,
}

/// The tables of a cipher.
#[derive(Clone, Debug, PartialEq, Eq)]
pub struct Tables {
    /// The r + 1 key matrices, Kmatrix in 001.
    pub keys: Vec<u8>,
    /// The r layer matrices, Lmatrix in 001.
    pub layers: Vec<u8>,
    /// The r round constants.
    pub constants: Vec<u8>,
}

impl Lowmc {
    /// The cipher of these numbers; nothing if n is 0 or the S-boxes need
    /// more bits than a block has.
    pub fn new(n: usize, s: usize, r: usize) -> Option<Lowmc> {
        let fits = n > 0 && s <= n / 3;
        fits.then_some(Lowmc { n, s, r })
    }

    /// Bytes of a block, a key or a row of a matrix.
    pub fn width(&self) -> usize {
        width(self.n)
    }

    /// S-boxes in a round, s.
    pub fn sboxes(&self) -> usize {
        self.s
    }

    /// Rounds, r.
    pub fn rounds(&self) -> usize {
        self.r
    }

    /// Bytes of a matrix.
    fn matrix_bytes(&self) -> usize {
        self.n * self.width()
    }

    /// Draws the tables: the layer matrices, then the round constants, then
    /// the key matrices.
    pub fn draw_tables(&self) -> Tables {
        let mut stream = BitStream::new();
        let layers = stream.next_matrices(self.r, self.n);
        let constants = stream.next_rows(self.r, self.n);
        let keys = stream.next_matrices(self.r + 1, self.n);
        Tables {
            keys: rows_to_bytes(&keys),
            layers: rows_to_bytes(&layers),
            constants: rows_to_bytes(&constants),
        }
    }

    /// The drawn tables, drawn once in a process and kept. The number of
    /// S-boxes plays no part in the drawing.
    pub fn tables(&self) -> Arc<Tables> {
        static DRAWN: Mutex<BTreeMap<(usize, usize), Arc<Tables>>> = Mutex::new(BTreeMap::new());
        let mut drawn = DRAWN.lock().expect("drawing tables does not fail");
        let entry = drawn.entry((self.n, self.r));
        Arc::clone(entry.or_insert_with(|| Arc::new(self.draw_tables())))
    }

    /// The encryption of a block under a key. The lengths of the tables, the
    /// key and the block must be those of the cipher.
    pub fn encrypt(&self, tables: &Tables, key: &[u8], block: &[u8]) -> Vec<u8> {
        self.check_lengths(tables, key, block);
        let key = from_bytes(key, self.n);
        let mut state = xor(
            &self.multiply(&tables.keys, 0, &key),
            &from_bytes(block, self.n),
        );
        for i in 1..=self.r {
            self.substitute(&mut state);
            state = self.multiply(&tables.layers, i - 1, &state);
            state = xor(&state, &self.constant(&tables.constants, i - 1));
            state = xor(&state, &self.multiply(&tables.keys, i, &key));
        }
        to_bytes(&state)
    }

    fn check_lengths(&self, tables: &Tables, key: &[u8], block: &[u8]) {
        assert_eq!(tables.keys.len(), (self.r + 1) * self.matrix_bytes());
        assert_eq!(tables.layers.len(), self.r * self.matrix_bytes());
        assert_eq!(tables.constants.len(), self.r * self.width());
        assert_eq!(key.len(), self.width());
        assert_eq!(block.len(), self.width());
    }

    /// The product of matrix number `index` of a table and a vector: output
    /// bit i is the parity of row i AND the vector.
    pub(crate) fn multiply(&self, table: &[u8], index: usize, vector: &[bool]) -> Bits {
        let start = index * self.matrix_bytes();
        let matrix = &table[start..start + self.matrix_bytes()];
        let rows = matrix.chunks(self.width());
        rows.map(|row| parity_of_and(&from_bytes(row, self.n), vector))
            .collect()
    }

    /// Round constant number `index`.
    pub(crate) fn constant(&self, constants: &[u8], index: usize) -> Bits {
        let start = index * self.width();
        from_bytes(&constants[start..start + self.width()], self.n)
    }

    /// The S-boxes, on bits 0 to 3s-1 in threes, with c, b, a in this order.
    fn substitute(&self, state: &mut [bool]) {
        for three in state[..3 * self.s].chunks_mut(3) {
            let (a, b, c) = sbox(three[2], three[1], three[0]);
            (three[2], three[1], three[0]) = (a, b, c);
        }
    }
}

/// One S-box: from (a, b, c) to the new (a, b, c).
pub fn sbox(a: bool, b: bool, c: bool) -> (bool, bool, bool) {
    (a ^ (b & c), a ^ b ^ (c & a), a ^ b ^ c ^ (a & b))
}

/// The XOR of two bit strings of one length.
pub(crate) fn xor(x: &[bool], y: &[bool]) -> Bits {
    assert_eq!(x.len(), y.len());
    x.iter().zip(y).map(|(x, y)| x ^ y).collect()
}

/// Whether the number of places at which both strings have a one is odd.
fn parity_of_and(x: &[bool], y: &[bool]) -> bool {
    assert_eq!(x.len(), y.len());
    x.iter().zip(y).fold(false, |sum, (x, y)| sum ^ (x & y))
}

/// Rows one after the other, each padded to whole bytes.
fn rows_to_bytes(rows: &[Bits]) -> Vec<u8> {
    rows.iter().flat_map(|row| to_bytes(row)).collect()
}

/// Whether a square matrix has full rank over GF(2): whether elimination
/// finds a row with a one for every column.
fn has_full_rank(matrix: &[Bits]) -> bool {
    let mut rows = matrix.to_vec();
    for column in 0..rows.len() {
        let Some(found) = (column..rows.len()).find(|&row| rows[row][column]) else {
            return false;
        };
        rows.swap(column, found);
        let (done, below) = rows.split_at_mut(column + 1);
        let pivot = &done[column];
        for row in below.iter_mut().filter(|row| row[column]) {
            for (bit, pivot_bit) in row.iter_mut().zip(pivot) {
                *bit ^= pivot_bit;
            }
        }
    }
    true
}

/// A ring of 80 bits that a reading place goes round. A step replaces the bit
/// at the place by the XOR of it and five bits further on, gives it out, and
/// moves the place on by one.
struct Register {
    /// The ring, turned so that the reading place is the bit of worth 1 and
    /// the bit i places further on is that of worth 2^i.
    ring: u128,
}

impl Register {
    const LENGTH: usize = 80;

    fn of_ones() -> Self {
        Register {
            ring: (1 << Self::LENGTH) - 1,
        }
    }

    fn bit(&self, places_further_on: usize) -> bool {
        (self.ring >> places_further_on) & 1 == 1
    }

    fn step(&mut self) -> bool {
        let new = [0, 13, 23, 38, 51, 62]
            .iter()
            .fold(false, |sum, &further| sum ^ self.bit(further));
        self.ring = (self.ring >> 1) | (u128::from(new) << (Self::LENGTH - 1));
        new
    }
}

/// The bits that tables are drawn from: the outputs of the register after the
/// first 160, shrunk by themselves.
struct BitStream {
    register: Register,
}

impl BitStream {
    const DROPPED: usize = 160;

    fn new() -> Self {
        let mut register = Register::of_ones();
        for _ in 0..Self::DROPPED {
            register.step();
        }
        BitStream { register }
    }

    /// The next bit: outputs are taken in twos, and the second counts only if
    /// the first is a one.
    fn next_bit(&mut self) -> bool {
        loop {
            let first = self.register.step();
            let second = self.register.step();
            if first {
                return second;
            }
        }
    }

    /// The next `count` rows of `n` bits, bit 0 of each first.
    fn next_rows(&mut self, count: usize, n: usize) -> Vec<Bits> {
        (0..count)
            .map(|_| (0..n).map(|_| self.next_bit()).collect())
            .collect()
    }

    /// The next matrix of full rank; those without are drawn and thrown away.
    fn next_matrix(&mut self, n: usize) -> Vec<Bits> {
        loop {
            let matrix = self.next_rows(n, n);
            if has_full_rank(&matrix) {
                return matrix;
            }
        }
    }

    /// The rows of the next `count` matrices.
    fn next_matrices(&mut self, count: usize, n: usize) -> Vec<Bits> {
        (0..count).flat_map(|_| self.next_matrix(n)).collect()
    }
}

#[cfg(test)]
mod tests {
    use super::*;

    /// Bits written as text.
    fn bits(text: &str) -> Bits {
        text.chars().map(|c| c == '1').collect()
    }

    fn matrix(rows: &[&str]) -> Vec<Bits> {
        rows.iter().map(|row| bits(row)).collect()
    }

    /// The examples P1 to P8 of 01, each as (a, b, c) before and after.
    #[test]
    fn sbox_gives_the_examples_of_01() {
        let examples = [
            ("000", "000"),
            ("001", "001"),
            ("010", "011"),
            ("011", "110"),
            ("100", "111"),
            ("101", "100"),
            ("110", "101"),
            ("111", "010"),
        ];
        for (before, after) in examples {
            let x = bits(before);
            let (a, b, c) = sbox(x[0], x[1], x[2]);
            assert_eq!(vec![a, b, c], bits(after), "{before}");
        }
    }

    /// The same examples where c, b, a lie in a state, and the bits behind
    /// the S-boxes, which stay.
    #[test]
    fn sboxes_lie_at_the_start_with_c_first() {
        let cipher = Lowmc::new(8, 2, 1).unwrap();
        let mut state = bits("00101011");
        cipher.substitute(&mut state);
        assert_eq!(state, bits("11111011"));
    }

    #[test]
    fn rank_is_tested_over_gf_2() {
        assert!(has_full_rank(&matrix(&["100", "010", "001"])));
        assert!(has_full_rank(&matrix(&["001", "110", "100"])));
        assert!(!has_full_rank(&matrix(&["000", "010", "001"])));
        assert!(!has_full_rank(&matrix(&["101", "010", "101"])));
        // Of full rank over the numbers, for its determinant is 2.
        assert!(!has_full_rank(&matrix(&["110", "011", "101"])));
    }

    /// The ring kept as an array with a moving place, as the rule words it.
    #[test]
    fn register_follows_the_ring_rule() {
        let mut ring = [true; 80];
        let mut register = Register::of_ones();
        for step in 0..1000 {
            let i = step % 80;
            ring[i] = ring[i]
                ^ ring[(i + 13) % 80]
                ^ ring[(i + 23) % 80]
                ^ ring[(i + 38) % 80]
                ^ ring[(i + 51) % 80]
                ^ ring[(i + 62) % 80];
            assert_eq!(register.step(), ring[i], "step {step}");
        }
    }

    /// Output bit i belongs to row i, and column j to input bit j.
    #[test]
    fn product_takes_rows_for_outputs() {
        let cipher = Lowmc::new(9, 0, 0).unwrap();
        let mut rows = vec![vec![false; 9]; 9];
        rows[2][8] = true;
        rows[4][0] = true;
        rows[4][8] = true;
        let table = [vec![0xff; 18], rows_to_bytes(&rows)].concat();
        let product = |vector: &str| cipher.multiply(&table, 1, &bits(vector));
        assert_eq!(product("100000000"), bits("000010000"));
        assert_eq!(product("000000001"), bits("001010000"));
        assert_eq!(product("100000001"), bits("001000000"));
    }

    /// A whole encryption small enough to be done by hand: three bits, one
    /// round, every table in one byte a row.
    #[test]
    fn small_encryption_done_by_hand() {
        let cipher = Lowmc::new(3, 1, 1).unwrap();
        let keys = [
            matrix(&["100", "010", "001"]),
            matrix(&["011", "100", "010"]),
        ];
        let tables = Tables {
            keys: rows_to_bytes(&keys.concat()),
            layers: rows_to_bytes(&matrix(&["110", "001", "100"])),
            constants: rows_to_bytes(&matrix(&["011"])),
        };
        // Key 110, block 101: the first state is 011, so c = 0, b = 1, a = 1
        // and the S-box gives a = 1, b = 0, c = 1: 101. The layer gives 1 1 1,
        // the constant 100. The second key matrix gives 1 1 1, so 011.
        let out = cipher.encrypt(&tables, &to_bytes(&bits("110")), &to_bytes(&bits("101")));
        assert_eq!(out, to_bytes(&bits("011")));
    }

    #[test]
    fn numbers_that_suit_no_cipher_are_refused() {
        assert_eq!(Lowmc::new(0, 0, 4), None);
        assert_eq!(Lowmc::new(128, 43, 4), None);
        assert!(Lowmc::new(129, 43, 4).is_some());
    }

    /// Every drawn matrix has full rank, rows are padded with zeros, and the
    /// lengths are those of the cipher.
    #[test]
    fn drawn_tables_have_their_form() {
        let cipher = Lowmc::new(21, 7, 5).unwrap();
        let tables = cipher.draw_tables();
        assert_eq!(tables.keys.len(), 6 * 21 * 3);
        assert_eq!(tables.layers.len(), 5 * 21 * 3);
        assert_eq!(tables.constants.len(), 5 * 3);
        for table in [&tables.keys, &tables.layers, &tables.constants] {
            assert!(table.chunks(3).all(|row| row[2] & 0b111 == 0));
        }
        for table in [&tables.keys, &tables.layers] {
            for rows in table.chunks(21 * 3) {
                let rows: Vec<Bits> = rows.chunks(3).map(|row| from_bytes(row, 21)).collect();
                assert!(has_full_rank(&rows));
            }
        }
    }

    #[test]
    fn tables_are_drawn_once_and_kept() {
        let first = Lowmc::new(24, 8, 2).unwrap().tables();
        let again = Lowmc::new(24, 8, 2).unwrap().tables();
        let other = Lowmc::new(24, 8, 3).unwrap().tables();
        assert!(Arc::ptr_eq(&first, &again));
        assert_ne!(first, other);
    }
}
