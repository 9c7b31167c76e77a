//! The hashes by both sides.

use crate::buffers::{compared, Seen};
use crate::sessions::number;
use reference::desk;

/// One of the two functions that fill a slice.
pub type Shake = fn(&[u8], &mut [u8]);

/// Lengths around whole blocks of both rates, up to 1 MiB.
pub const LONG: [usize; 12] = [
    2_039, 2_040, 2_041, 2_519, 2_520, 2_521, 65_535, 65_536, 131_072, 1_048_559, 1_048_560,
    1_048_576,
];

/// Lengths around a lane, and around one block and two of both rates.
pub const NEAR: [usize; 16] = [
    0, 1, 7, 8, 9, 135, 136, 137, 167, 168, 169, 271, 272, 335, 336, 337,
];

/// Bytes that a sign or a carry could trouble.
pub const TROUBLE: [u8; 5] = [0x00, 0x01, 0x7F, 0x80, 0xFF];

/// Hashes a message by SHA3-256 of both into a buffer that holds `room` before.
pub fn digested(
    sha3_256: impl Fn(&[u8], &mut [u8]) -> u8,
    message: &[u8],
    room: &[u8],
) -> Seen<u8> {
    compared(
        &[],
        room,
        [message],
        |_, out, [message]| sha3_256(message, out),
        |_, out| number(desk::sha3_256(message, out)),
    )
}

/// Fills a buffer that holds `room` before by a SHAKE of both.
pub fn filled(library: Shake, reference: Shake, message: &[u8], room: &[u8]) {
    compared(
        &[],
        room,
        [message],
        |_, out, [message]| library(message, out),
        |_, out| reference(message, out),
    );
}
