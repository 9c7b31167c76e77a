//! The exports of SHAKE128 and SHAKE256. SHA3-256 is the desk's.

extern "C" {
    fn probe_shake128(message: *const u8, length: usize, out: *mut u8, room: usize);
    fn probe_shake256(message: *const u8, length: usize, out: *mut u8, room: usize);
}

/// Fills the output.
#[inline]
pub fn shake128(message: &[u8], out: &mut [u8]) {
    // SAFETY: each pointer and length are those of one slice, lent for the call.
    unsafe { probe_shake128(message.as_ptr(), message.len(), out.as_mut_ptr(), out.len()) }
}

/// Fills the output.
#[inline]
pub fn shake256(message: &[u8], out: &mut [u8]) {
    // SAFETY: each pointer and length are those of one slice, lent for the call.
    unsafe { probe_shake256(message.as_ptr(), message.len(), out.as_mut_ptr(), out.len()) }
}
