//! The Keccak permutations of FIPS 202, section 3, over a lane width of 2^l bits.
//!
//! A lane stands in the low bits of a `u64`; bit z of the lane has the value 2^z.

/// The state: lane (x, y) stands at x + 5y.
pub type Lanes = [u64; 25];

/// l of the 64-bit lanes of Keccak-f\[1600\].
pub const L_1600: usize = 6;

/// The rotation offset of each lane, before it is taken modulo the lane width (section 3.2.2).
pub const OFFSETS: [usize; 25] = offsets();

/// The round constants of 64-bit lanes; a narrower lane keeps the low bits (section 3.2.5).
pub const CONSTANTS: [u64; 24] = constants();

/// Walks from lane (1, 0) over the 24 lanes that move, as algorithm 2 does.
const fn offsets() -> [usize; 25] {
    let mut offsets = [0; 25];
    let (mut x, mut y) = (1, 0);
    let mut t = 0;
    while t < 24 {
        offsets[x + 5 * y] = (t + 1) * (t + 2) / 2;
        (x, y) = (y, (2 * x + 3 * y) % 5);
        t += 1;
    }
    offsets
}

/// The bit that the feedback register gives after t steps (algorithm 5).
const fn register_bit(t: usize) -> u64 {
    let mut register = 1;
    let mut step = 0;
    while step < t % 255 {
        register <<= 1;
        if register & 0x100 != 0 {
            register ^= 0x171;
        }
        step += 1;
    }
    register & 1
}

/// Places register bits at positions 2^j - 1 of each constant, as algorithm 6 does.
const fn constants() -> [u64; 24] {
    let mut constants = [0; 24];
    let mut round = 0;
    while round < 24 {
        let mut j = 0;
        while j <= L_1600 {
            constants[round] |= register_bit(j + 7 * round) << ((1 << j) - 1);
            j += 1;
        }
        round += 1;
    }
    constants
}

/// How many rounds Keccak-f has for lanes of 2^l bits.
pub const fn all_rounds(l: usize) -> usize {
    12 + 2 * l
}

/// Keccak-p: the last `rounds` rounds of Keccak-f for lanes of 2^l bits.
pub fn permuted(lanes: Lanes, l: usize, rounds: usize) -> Lanes {
    let all = all_rounds(l);
    let mut lanes = lanes;
    for constant in &CONSTANTS[all - rounds..all] {
        lanes = iota(chi(pi(rho(theta(lanes, l), l))), *constant, l);
    }
    lanes
}

/// Keccak-f\[1600\], the permutation under everything else here.
pub fn permuted_1600(lanes: Lanes) -> Lanes {
    permuted(lanes, L_1600, all_rounds(L_1600))
}

/// Lane (x, y), with both indices taken modulo 5.
fn lane(lanes: &Lanes, x: usize, y: usize) -> u64 {
    lanes[x % 5 + 5 * (y % 5)]
}

/// The state whose lane (x, y) is given by a rule.
fn state(rule: impl Fn(usize, usize) -> u64) -> Lanes {
    std::array::from_fn(|i| rule(i % 5, i / 5))
}

/// The low 2^l bits of a word.
fn cut(word: u64, l: usize) -> u64 {
    word & (u64::MAX >> (64 - (1 << l)))
}

/// A lane of 2^l bits with each bit z moved to z + by, modulo its width.
fn rotated(lane: u64, by: usize, l: usize) -> u64 {
    let width = 1 << l;
    match by % width {
        0 => lane,
        by => cut(lane << by, l) | lane >> (width - by),
    }
}

/// Adds to each bit the parities of two columns near it.
fn theta(a: Lanes, l: usize) -> Lanes {
    let parity = |x: usize| (0..5).fold(0, |sum, y| sum ^ lane(&a, x, y));
    let parities: [u64; 5] = std::array::from_fn(parity);
    let near = |x: usize| parities[(x + 4) % 5] ^ rotated(parities[(x + 1) % 5], 1, l);
    state(|x, y| lane(&a, x, y) ^ near(x))
}

/// Rotates each lane by its offset.
fn rho(a: Lanes, l: usize) -> Lanes {
    std::array::from_fn(|i| rotated(a[i], OFFSETS[i], l))
}

/// Moves each lane to another place.
fn pi(a: Lanes) -> Lanes {
    state(|x, y| lane(&a, x + 3 * y, x))
}

/// Mixes the bits of each row, the only step that is not linear.
fn chi(a: Lanes) -> Lanes {
    state(|x, y| lane(&a, x, y) ^ (!lane(&a, x + 1, y) & lane(&a, x + 2, y)))
}

/// Adds the round's constant to lane (0, 0), so that no two rounds are the same.
fn iota(a: Lanes, constant: u64, l: usize) -> Lanes {
    let mut lanes = a;
    lanes[0] ^= cut(constant, l);
    lanes
}

/// The 64-bit lanes of 200 bytes: byte i goes to lane i / 8, at bits 8(i mod 8) upward.
pub fn lanes_of(bytes: &[u8; 200]) -> Lanes {
    let mut lanes = [0; 25];
    for (i, byte) in bytes.iter().enumerate() {
        lanes[i / 8] |= u64::from(*byte) << (8 * (i % 8));
    }
    lanes
}

/// The 200 bytes of 64-bit lanes, in block order.
pub fn bytes_of(lanes: &Lanes) -> [u8; 200] {
    std::array::from_fn(|i| (lanes[i / 8] >> (8 * (i % 8))) as u8)
}
