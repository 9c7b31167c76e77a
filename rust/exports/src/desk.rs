//! The exports of libdesk.a: what include/feefledown.h declares, no more.

crate::pairs::pair_calls!(feefledown_wrap, feefledown_unwrap);

extern "C" {
    pub fn feefledown_open(
        key: *const u8,
        key_length: usize,
        image: *mut u8,
        image_length: usize,
    ) -> u8;
    pub fn feefledown_sha3_256(
        message: *const u8,
        message_length: usize,
        digest: *mut u8,
        digest_length: usize,
    ) -> u8;
}

/// The rate of every session that the surface opens.
pub const RATE: u16 = 136;

/// The tag length of every session that the surface opens.
pub const TAG: u16 = 16;

/// Opens a session into the image; answers 0 or a refusal.
#[inline]
pub fn open(key: &[u8], image: &mut [u8]) -> u8 {
    // SAFETY: each pointer and length are those of one slice, lent for the call.
    unsafe { feefledown_open(key.as_ptr(), key.len(), image.as_mut_ptr(), image.len()) }
}

/// Writes the digest to the first 32 bytes; answers 0, or 6 if there are fewer.
#[inline]
pub fn sha3_256(message: &[u8], digest: &mut [u8]) -> u8 {
    // SAFETY: each pointer and length are those of one slice, lent for the call.
    unsafe {
        feefledown_sha3_256(
            message.as_ptr(),
            message.len(),
            digest.as_mut_ptr(),
            digest.len(),
        )
    }
}
