//! The duplex object of "Duplexing the sponge", over framed pieces.
//!
//! A rate R is in bytes. A piece has at most R - 1 bytes, so that its frame bit and the padding
//! still fit the block.

use crate::keccak::{bytes_of, lanes_of, permuted_1600, Lanes};

/// A duplex object: it takes a piece and gives output at each call.
pub struct Duplex {
    pub lanes: Lanes,
    pub rate: usize,
    /// How often it has permuted since it was made.
    pub calls: u64,
}

impl Duplex {
    /// An object that goes on from the given lanes.
    pub fn new(lanes: Lanes, rate: usize) -> Self {
        Duplex {
            lanes,
            rate,
            calls: 0,
        }
    }

    /// One duplexing: absorbs a piece with its frame bit and gives the first R - 1 bytes after it.
    pub fn duplexing(&mut self, piece: &[u8], frame: bool) -> Vec<u8> {
        let block = padded(piece, frame, self.rate);
        let mut state = bytes_of(&self.lanes);
        for (byte, added) in state.iter_mut().zip(block) {
            *byte ^= added;
        }
        self.lanes = permuted_1600(lanes_of(&state));
        self.calls += 1;
        bytes_of(&self.lanes)[..self.rate - 1].to_vec()
    }

    /// The same into a lent output of at most R bytes; answers whether it was done. A rate that is
    /// none, a longer piece or a longer output leaves the object and the output as they were.
    pub fn duplexing_into(&mut self, piece: &[u8], frame: bool, out: &mut [u8]) -> bool {
        if !is_rate(self.rate) || piece.len() >= self.rate || out.len() > self.rate {
            return false;
        }
        self.duplexing(piece, frame);
        out.copy_from_slice(&bytes_of(&self.lanes)[..out.len()]);
        true
    }
}

/// Whether a rate is one of the two that there are.
pub fn is_rate(rate: usize) -> bool {
    rate == 136 || rate == 168
}

/// A piece as a block of R bytes: the frame bit follows it, then pad10*1.
pub fn padded(piece: &[u8], frame: bool, rate: usize) -> Vec<u8> {
    assert!(piece.len() < rate);
    let mut block = piece.to_vec();
    block.push(0b10 + u8::from(frame));
    block.resize(rate, 0);
    block[rate - 1] |= 0x80;
    block
}

/// A string cut into pieces of R - 1 bytes; an empty string is one empty piece.
pub fn pieces(string: &[u8], rate: usize) -> Vec<&[u8]> {
    match string {
        [] => vec![string],
        _ => string.chunks(rate - 1).collect(),
    }
}

/// How many blocks a string of that length takes.
pub fn blocks(length: usize, rate: usize) -> u64 {
    match length {
        0 => 1,
        _ => length.div_ceil(rate - 1) as u64,
    }
}
