//! The permutation's exports: a state of 200 bytes in block order, changed where it stands.

extern "C" {
    fn probe_permute(state: *mut u8, length: usize) -> u8;
    fn probe_permute_times(state: *mut u8, length: usize, times: u64) -> u8;
}

/// Permutes a state once; answers 0, or 6 for another length than 200.
#[inline]
pub fn permute(state: &mut [u8]) -> u8 {
    // SAFETY: pointer and length are those of one slice, lent for the call.
    unsafe { probe_permute(state.as_mut_ptr(), state.len()) }
}

/// Permutes a state `times` times in one call, so that a measurement sees little else.
#[inline]
pub fn permute_times(state: &mut [u8], times: u64) -> u8 {
    // SAFETY: pointer and length are those of one slice, lent for the call.
    unsafe { probe_permute_times(state.as_mut_ptr(), state.len(), times) }
}
