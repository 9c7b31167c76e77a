//! The sponge of FIPS 202, section 4, and three functions over it, section 6.
//!
//! A rate R is in bytes. The suffix byte holds a function's own bits, lowest first, and right
//! after them the first 1 of pad10*1.

use crate::keccak::{permuted_1600, Lanes};

/// A sponge that takes a message in parts of any length.
pub struct Absorbing {
    lanes: Lanes,
    rate: usize,
    /// Bytes of the present block that are absorbed already; under the rate.
    at: usize,
}

impl Absorbing {
    /// A sponge with a state of zeros.
    pub fn new(rate: usize) -> Self {
        Absorbing {
            lanes: [0; 25],
            rate,
            at: 0,
        }
    }

    /// Absorbs the next part of the message.
    pub fn absorb(&mut self, part: &[u8]) {
        for byte in part {
            add(&mut self.lanes, self.at, *byte);
            self.at += 1;
            if self.at == self.rate {
                self.lanes = permuted_1600(self.lanes);
                self.at = 0;
            }
        }
    }

    /// Ends the message by the suffix and the last 1 of the padding, which may meet in one byte.
    pub fn padded(mut self, suffix: u8) -> Squeezing {
        add(&mut self.lanes, self.at, suffix);
        add(&mut self.lanes, self.rate - 1, 0x80);
        Squeezing {
            lanes: permuted_1600(self.lanes),
            rate: self.rate,
            at: 0,
        }
    }
}

/// A sponge after its message, which gives output without end.
pub struct Squeezing {
    lanes: Lanes,
    rate: usize,
    /// Bytes of the present block that are given already; at most the rate.
    at: usize,
}

impl Squeezing {
    /// Fills a slice with the next bytes of the output.
    pub fn squeeze(&mut self, out: &mut [u8]) {
        for byte in out {
            if self.at == self.rate {
                self.lanes = permuted_1600(self.lanes);
                self.at = 0;
            }
            *byte = (self.lanes[self.at / 8] >> (8 * (self.at % 8))) as u8;
            self.at += 1;
        }
    }
}

/// Xors a byte into the state at its place in block order.
fn add(lanes: &mut Lanes, at: usize, byte: u8) {
    lanes[at / 8] ^= u64::from(byte) << (8 * (at % 8));
}

/// Hashes one whole message to as many bytes as `out` has.
fn hash(rate: usize, suffix: u8, message: &[u8], out: &mut [u8]) {
    let mut sponge = Absorbing::new(rate);
    sponge.absorb(message);
    sponge.padded(suffix).squeeze(out);
}

/// SHA3-256: suffix bits 01.
pub fn sha3_256(message: &[u8]) -> [u8; 32] {
    let mut digest = [0; 32];
    hash(136, 0x06, message, &mut digest);
    digest
}

/// SHAKE128: suffix bits 1111.
pub fn shake128(message: &[u8], out: &mut [u8]) {
    hash(168, 0x1F, message, out);
}

/// SHAKE256: suffix bits 1111.
pub fn shake256(message: &[u8], out: &mut [u8]) {
    hash(136, 0x1F, message, out);
}
