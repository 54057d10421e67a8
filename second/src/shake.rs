//! SHAKE128 and SHAKE256 of FIPS 202, sections 4 to 6.
//!
//! A sponge takes in a message in any pieces. Closing it gives a stream that
//! hands out as many bytes as are asked for, again in any pieces.

use crate::keccak::{permute, State};

/// Which of the two functions is meant.
#[derive(Clone, Copy, Debug, PartialEq, Eq)]
pub enum Hash {
    /// SHAKE128, of capacity 256 bits.
    Shake128,
    /// SHAKE256, of capacity 512 bits.
    Shake256,
}

impl Hash {
    /// The bytes of the state that the message and the output pass through:
    /// all 200 but the capacity.
    pub const fn rate(self) -> usize {
        match self {
            Hash::Shake128 => 200 - 256 / 8,
            Hash::Shake256 => 200 - 512 / 8,
        }
    }
}

/// Adds a byte to byte number `i` of the state; the lowest byte of a lane
/// comes first.
fn add_byte(state: &mut State, i: usize, byte: u8) {
    state[i / 8] ^= u64::from(byte) << (8 * (i % 8));
}

/// Byte number `i` of the state.
fn byte_at(state: &State, i: usize) -> u8 {
    (state[i / 8] >> (8 * (i % 8))) as u8
}

/// How many of the next bytes from byte number `i` on come before the next
/// whole lane.
fn before_lane(i: usize, length: usize) -> usize {
    length.min((8 - i % 8) % 8)
}

/// Adds bytes to the state from byte number `i` on, by whole lanes where they
/// fill them.
fn add_bytes(state: &mut State, i: usize, bytes: &[u8]) {
    let (start, rest) = bytes.split_at(before_lane(i, bytes.len()));
    let lanes = rest.chunks_exact(8);
    let end = lanes.remainder();
    for (place, &byte) in (i..).zip(start) {
        add_byte(state, place, byte);
    }
    for (lane, eight) in state[(i + start.len()) / 8..].iter_mut().zip(lanes) {
        *lane ^= u64::from_le_bytes(eight.try_into().expect("these are eight"));
    }
    for (place, &byte) in (i + bytes.len() - end.len()..).zip(end) {
        add_byte(state, place, byte);
    }
}

/// Fills a slice with the bytes of the state from byte number `i` on, by whole
/// lanes where it holds them.
fn give_bytes(state: &State, i: usize, out: &mut [u8]) {
    let length = out.len();
    let (start, rest) = out.split_at_mut(before_lane(i, length));
    let first_lane = (i + start.len()) / 8;
    for (place, byte) in (i..).zip(start) {
        *byte = byte_at(state, place);
    }
    let mut lanes = rest.chunks_exact_mut(8);
    for (eight, lane) in (&mut lanes).zip(&state[first_lane..]) {
        eight.copy_from_slice(&lane.to_le_bytes());
    }
    let end = lanes.into_remainder();
    for (place, byte) in (i + length - end.len()..).zip(end) {
        *byte = byte_at(state, place);
    }
}

/// A sponge that takes in a message.
#[derive(Clone)]
pub struct Sponge {
    state: State,
    rate: usize,
    /// Bytes taken in since the last permutation, always below the rate.
    taken: usize,
}

impl Sponge {
    /// The sponge that has taken in nothing.
    pub fn new(hash: Hash) -> Self {
        Sponge {
            state: [0; 25],
            rate: hash.rate(),
            taken: 0,
        }
    }

    /// Takes in the next piece of the message.
    pub fn absorb(&mut self, piece: &[u8]) {
        let mut rest = piece;
        while !rest.is_empty() {
            let (now, later) = rest.split_at(rest.len().min(self.rate - self.taken));
            add_bytes(&mut self.state, self.taken, now);
            self.taken += now.len();
            if self.taken == self.rate {
                self.state = permute(&self.state);
                self.taken = 0;
            }
            rest = later;
        }
    }

    /// Ends the message: the four bits 1111 that mark SHAKE, then a one, as
    /// many zeros as are needed, and a one at the end of the block. Bits of a
    /// byte count from its lowest here.
    pub fn close(mut self) -> Stream {
        add_byte(&mut self.state, self.taken, 0b0001_1111);
        add_byte(&mut self.state, self.rate - 1, 0b1000_0000);
        Stream {
            state: permute(&self.state),
            rate: self.rate,
            given: 0,
        }
    }
}

/// The output of a closed sponge, without end.
#[derive(Clone)]
pub struct Stream {
    state: State,
    rate: usize,
    /// Bytes handed out since the last permutation, at most the rate.
    given: usize,
}

impl Stream {
    /// Fills the slice with the next bytes of output.
    pub fn squeeze(&mut self, out: &mut [u8]) {
        let mut rest = out;
        while !rest.is_empty() {
            if self.given == self.rate {
                self.state = permute(&self.state);
                self.given = 0;
            }
            let (now, later) = rest.split_at_mut(rest.len().min(self.rate - self.given));
            give_bytes(&self.state, self.given, now);
            self.given += now.len();
            rest = later;
        }
    }
}

/// The first `length` bytes of output for a whole message.
pub fn shake(hash: Hash, message: &[u8], length: usize) -> Vec<u8> {
    let mut sponge = Sponge::new(hash);
    sponge.absorb(message);
    let mut out = vec![0; length];
    sponge.close().squeeze(&mut out);
    out
}

#[cfg(test)]
mod tests {
    use super::*;
    use crate::hex::to_hex;

    const BOTH: [Hash; 2] = [Hash::Shake128, Hash::Shake256];

    /// Bytes without a short period, so that a piece taken twice, left out or
    /// put elsewhere shows.
    fn sample(length: usize) -> Vec<u8> {
        (0..length).map(|i| (i % 251) as u8).collect()
    }

    /// Lengths at which a block is not yet, just, and more than full.
    fn lengths_around(rate: usize) -> Vec<usize> {
        let mut lengths = vec![0, 1, 7, 8, 9];
        for blocks in 1..=3 {
            lengths.extend([blocks * rate - 1, blocks * rate, blocks * rate + 1]);
        }
        lengths
    }

    /// Piece sizes that fall on, before and after lanes and blocks.
    fn piece_sizes(rate: usize) -> [usize; 8] {
        [1, 3, 7, 8, rate - 1, rate, rate + 1, 2 * rate]
    }

    #[test]
    fn rates_are_168_and_136_bytes() {
        assert_eq!(Hash::Shake128.rate(), 168);
        assert_eq!(Hash::Shake256.rate(), 136);
    }

    /// The example values published beside FIPS 202: the empty message and
    /// 200 bytes of A3 hex.
    #[test]
    fn examples_of_the_standard() {
        let examples: [(Hash, &[u8], &str); 4] = [
            (
                Hash::Shake128,
                &[],
                "7f9c2ba4e88f827d616045507605853ed73b8093f6efbc88eb1a6eacfa66ef26",
            ),
            (
                Hash::Shake128,
                &[0xa3; 200],
                "131ab8d2b594946b9c81333f9bb6e0ce75c3b93104fa3469d3917457385da037",
            ),
            (
                Hash::Shake256,
                &[],
                "46b9dd2b0ba88d13233b3feb743eeb243fcd52ea62b81b82b50c27646ed5762f",
            ),
            (
                Hash::Shake256,
                &[0xa3; 200],
                "cd8a920ed141aa0407a22d59288652e9d9f1a7ee0c1e7c1ca699424da84a904d",
            ),
        ];
        for (hash, message, expected) in examples {
            assert_eq!(to_hex(&shake(hash, message, 32)), expected, "{hash:?}");
        }
    }

    /// A message of several blocks, which the published vectors do not have;
    /// the outputs come from another implementation.
    #[test]
    fn message_of_many_blocks() {
        let message = sample(1000);
        assert_eq!(
            to_hex(&shake(Hash::Shake128, &message, 32)),
            "a72440f7f5aa7c14c8e0187420611da7e2ba62f5bb2e88a91b9c9448cac30078"
        );
        assert_eq!(
            to_hex(&shake(Hash::Shake256, &message, 32)),
            "34833f03ed88bb5f083ce590c7ae5af93ede33e11f53c70e47916c7044746acb"
        );
    }

    #[test]
    fn absorbing_in_pieces_is_absorbing_whole() {
        for hash in BOTH {
            for length in lengths_around(hash.rate()) {
                let message = sample(length);
                let whole = shake(hash, &message, 64);
                for size in piece_sizes(hash.rate()) {
                    let mut sponge = Sponge::new(hash);
                    for piece in message.chunks(size) {
                        sponge.absorb(piece);
                        sponge.absorb(&[]);
                    }
                    let mut out = vec![0; 64];
                    sponge.close().squeeze(&mut out);
                    assert_eq!(out, whole, "{hash:?}, {length} bytes by {size}");
                }
            }
        }
    }

    #[test]
    fn absorbing_two_parts_cut_anywhere_is_absorbing_whole() {
        for hash in BOTH {
            let message = sample(hash.rate() + 20);
            let whole = shake(hash, &message, 64);
            for cut in 0..=message.len() {
                let mut sponge = Sponge::new(hash);
                sponge.absorb(&message[..cut]);
                sponge.absorb(&message[cut..]);
                let mut out = vec![0; 64];
                sponge.close().squeeze(&mut out);
                assert_eq!(out, whole, "{hash:?}, cut at {cut}");
            }
        }
    }

    #[test]
    fn squeezing_in_pieces_is_squeezing_whole() {
        for hash in BOTH {
            for length in lengths_around(hash.rate()) {
                let whole = shake(hash, b"squeezed", length);
                for size in piece_sizes(hash.rate()) {
                    let mut sponge = Sponge::new(hash);
                    sponge.absorb(b"squeezed");
                    let mut stream = sponge.close();
                    let mut out = vec![0; length];
                    for piece in out.chunks_mut(size) {
                        stream.squeeze(&mut []);
                        stream.squeeze(piece);
                    }
                    assert_eq!(out, whole, "{hash:?}, {length} bytes by {size}");
                }
            }
        }
    }

    #[test]
    fn shorter_output_is_the_start_of_longer_output() {
        for hash in BOTH {
            let longest = shake(hash, b"start", 3 * hash.rate() + 1);
            for length in lengths_around(hash.rate()) {
                assert_eq!(shake(hash, b"start", length), longest[..length]);
            }
        }
    }
}
