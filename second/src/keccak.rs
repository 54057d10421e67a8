//! The permutation Keccak-f[1600] of FIPS 202, section 3.
//!
//! The state is 25 lanes of 64 bits. Lane (x, y) is kept at place x + 5y, and
//! bit z of a lane is the bit of worth 2^z. The rotations and the round
//! constants are computed from the rules that FIPS 202 gives for them.

/// The state that the permutation works on.
pub type State = [u64; 25];

const ROUNDS: usize = 24;
const ROTATIONS: [u32; 25] = rotations();
const ROUND_CONSTANTS: [u64; ROUNDS] = round_constants();

/// Where lane (x, y) is kept; coordinates count modulo 5.
const fn place(x: usize, y: usize) -> usize {
    x % 5 + 5 * (y % 5)
}

/// How far rho turns each lane: a walk over all lanes but (0, 0), on which
/// step t gives the offset (t+1)(t+2)/2.
const fn rotations() -> [u32; 25] {
    let mut offsets = [0; 25];
    let (mut x, mut y) = (1, 0);
    let mut t = 0;
    while t < 24 {
        offsets[place(x, y)] = (t + 1) * (t + 2) / 2 % 64;
        (x, y) = (y, (2 * x + 3 * y) % 5);
        t += 1;
    }
    offsets
}

/// The bit rc(t): bit R[0] of an eight-bit feedback register after t steps.
/// R[i] is kept as the bit of worth 2^i.
const fn rc(t: usize) -> u64 {
    let mut register: u64 = 1;
    let mut step = 0;
    while step < t % 255 {
        register <<= 1;
        let carried = (register >> 8) & 1;
        register ^= carried | (carried << 4) | (carried << 5) | (carried << 6);
        register &= 0xff;
        step += 1;
    }
    register & 1
}

/// The constant of each round: bit 2^j - 1 is rc(j + 7·round) for j from 0
/// to 6, and every other bit is 0.
const fn round_constants() -> [u64; ROUNDS] {
    let mut constants = [0; ROUNDS];
    let mut round = 0;
    while round < ROUNDS {
        let mut j = 0;
        while j <= 6 {
            constants[round] |= rc(j + 7 * round) << ((1 << j) - 1);
            j += 1;
        }
        round += 1;
    }
    constants
}

/// Adds to each bit the parities of two columns beside it.
#[inline(always)]
fn theta(state: &State) -> State {
    let mut column = [0; 5];
    for x in 0..5 {
        for y in 0..5 {
            column[x] ^= state[place(x, y)];
        }
    }
    let mut next = *state;
    for x in 0..5 {
        let added = column[(x + 4) % 5] ^ column[(x + 1) % 5].rotate_left(1);
        for y in 0..5 {
            next[place(x, y)] ^= added;
        }
    }
    next
}

/// Turns each lane by its offset.
#[inline(always)]
fn rho(state: &State) -> State {
    let mut next = [0; 25];
    for i in 0..25 {
        next[i] = state[i].rotate_left(ROTATIONS[i]);
    }
    next
}

/// Moves the lanes to other places.
#[inline(always)]
fn pi(state: &State) -> State {
    let mut next = [0; 25];
    for x in 0..5 {
        for y in 0..5 {
            next[place(x, y)] = state[place(x + 3 * y, x)];
        }
    }
    next
}

/// Adds to each bit the product of the two beside it in its row, the first
/// of them negated.
#[inline(always)]
fn chi(state: &State) -> State {
    let mut next = [0; 25];
    for x in 0..5 {
        for y in 0..5 {
            next[place(x, y)] =
                state[place(x, y)] ^ (!state[place(x + 1, y)] & state[place(x + 2, y)]);
        }
    }
    next
}

/// Adds the round constant to lane (0, 0).
#[inline(always)]
fn iota(state: &State, constant: u64) -> State {
    let mut next = *state;
    next[place(0, 0)] ^= constant;
    next
}

/// Keccak-f[1600]: 24 rounds of the five steps.
pub fn permute(state: &State) -> State {
    #[cfg(test)]
    crate::work::counted::add(1, 0);
    let mut state = *state;
    for constant in ROUND_CONSTANTS {
        state = iota(&chi(&pi(&rho(&theta(&state)))), constant);
    }
    state
}

#[cfg(test)]
mod tests {
    use super::*;

    /// FIPS 202, table 2: the offsets of rho before the reduction modulo 64,
    /// written here by rows y and columns x.
    #[test]
    fn rotations_are_those_of_the_standard() {
        let table = [
            [0, 1, 190, 28, 91],
            [36, 300, 6, 55, 276],
            [3, 10, 171, 153, 231],
            [105, 45, 15, 21, 136],
            [210, 66, 253, 120, 78],
        ];
        for (y, row) in table.iter().enumerate() {
            for (x, offset) in row.iter().enumerate() {
                assert_eq!(ROTATIONS[place(x, y)], offset % 64, "lane ({x}, {y})");
            }
        }
    }

    /// The first two and the last of the well-known round constants.
    #[test]
    fn round_constants_are_those_known() {
        assert_eq!(ROUND_CONSTANTS[0], 0x0000_0000_0000_0001);
        assert_eq!(ROUND_CONSTANTS[1], 0x0000_0000_0000_8082);
        assert_eq!(ROUND_CONSTANTS[23], 0x8000_0000_8000_8008);
    }

    #[test]
    fn permutation_of_the_zero_state_is_the_known_one() {
        assert_eq!(permute(&[0; 25])[0], 0xF125_8F79_40E1_DDE7);
    }
}
