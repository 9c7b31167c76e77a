//! The exports that open sessions, each into an image of 216 bytes. Pairs are wrapped and unwrapped by the desk's.

extern "C" {
    fn probe_open(
        rate: u16,
        tag: u16,
        key: *const u8,
        key_length: usize,
        image: *mut u8,
        image_length: usize,
    ) -> u8;
    fn probe_default_open(
        key: *const u8,
        key_length: usize,
        image: *mut u8,
        image_length: usize,
    ) -> u8;
}

/// Opens a session into the image; answers 0 or a refusal.
#[inline]
pub fn open(rate: u16, tag: u16, key: &[u8], image: &mut [u8]) -> u8 {
    // SAFETY: each pointer and length are those of one slice, lent for the call.
    unsafe {
        probe_open(
            rate,
            tag,
            key.as_ptr(),
            key.len(),
            image.as_mut_ptr(),
            image.len(),
        )
    }
}

/// Opens a session without settings into the image; answers 0 or a refusal, which leaves zeros.
#[inline]
pub fn default_open(key: &[u8], image: &mut [u8]) -> u8 {
    // SAFETY: each pointer and length are those of one slice, lent for the call.
    unsafe { probe_default_open(key.as_ptr(), key.len(), image.as_mut_ptr(), image.len()) }
}
