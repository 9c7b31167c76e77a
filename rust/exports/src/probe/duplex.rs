//! The exports of the duplex object, which stands in 202 bytes: the state in block order, then the
//! rate, big-endian.

extern "C" {
    fn probe_new_duplex(rate: u16, object: *mut u8, object_length: usize) -> u8;
    fn probe_duplexing(
        object: *mut u8,
        object_length: usize,
        piece: *const u8,
        piece_length: usize,
        frame: bool,
        out: *mut u8,
        out_length: usize,
    ) -> u8;
}

/// Writes a fresh object; answers 0, or 6 for another length than 202.
#[inline]
pub fn new(rate: u16, object: &mut [u8]) -> u8 {
    // SAFETY: pointer and length are those of one slice, lent for the call.
    unsafe { probe_new_duplex(rate, object.as_mut_ptr(), object.len()) }
}

/// One duplexing; answers 0 if it was done and 1 if not, or 6 for another length than 202.
#[inline]
pub fn duplexing(object: &mut [u8], piece: &[u8], frame: bool, out: &mut [u8]) -> u8 {
    // SAFETY: each pointer and length are those of one slice, lent for the call.
    unsafe {
        probe_duplexing(
            object.as_mut_ptr(),
            object.len(),
            piece.as_ptr(),
            piece.len(),
            frame,
            out.as_mut_ptr(),
            out.len(),
        )
    }
}
