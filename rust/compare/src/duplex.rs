//! The duplex object by both sides: 202 bytes, the state in block order and the rate, big-endian.

use crate::buffers::{compared, Seen};
use reference::duplex::Duplex;
use reference::keccak::{bytes_of, lanes_of};
use reference::spongewrap::ROOM;

/// How many bytes an object has.
pub const OBJECT: usize = 202;

/// The bytes of an object.
pub fn object(state: &[u8; 200], rate: u16) -> [u8; OBJECT] {
    let parts = [state.as_slice(), &rate.to_be_bytes()];
    parts.concat().try_into().unwrap()
}

/// Makes a fresh object by both, in a buffer that holds `before`.
pub fn made(new: impl Fn(u16, &mut [u8]) -> u8, rate: u16, before: &[u8]) -> Seen<u8> {
    let fresh = |bytes: &mut [u8]| {
        let Ok(bytes) = <&mut [u8; OBJECT]>::try_from(bytes) else {
            return ROOM;
        };
        *bytes = object(&[0; 200], rate);
        0
    };
    compared(
        before,
        &[],
        [],
        |bytes, _, []| new(rate, bytes),
        |bytes, _| fresh(bytes),
    )
}

/// One duplexing by both into a buffer that holds `room` before.
pub fn duplexed(
    duplexing: impl Fn(&mut [u8], &[u8], bool, &mut [u8]) -> u8,
    object: &[u8],
    piece: &[u8],
    frame: bool,
    room: &[u8],
) -> Seen<u8> {
    compared(
        object,
        room,
        [piece],
        |object, out, [piece]| duplexing(object, piece, frame, out),
        |object, out| duplex_bytes(object, piece, frame, out),
    )
}

/// What the reference makes of an object's bytes: 0 if it was done, 1 if not.
fn duplex_bytes(bytes: &mut [u8], piece: &[u8], frame: bool, out: &mut [u8]) -> u8 {
    let Ok(bytes) = <&mut [u8; OBJECT]>::try_from(bytes) else {
        return ROOM;
    };
    let rate = u16::from_be_bytes([bytes[200], bytes[201]]);
    let lanes = lanes_of(bytes.first_chunk().unwrap());
    let mut duplex = Duplex::new(lanes, rate.into());
    let done = duplex.duplexing_into(piece, frame, out);
    *bytes = object(&bytes_of(&duplex.lanes), rate);
    u8::from(!done)
}
