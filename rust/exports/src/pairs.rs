//! The calls on pairs, which both archives export in one form, as safe functions.

/// Declares two exports over a session's image of 216 bytes and makes `wrap` and `unwrap` of them.
macro_rules! pair_calls {
    ($wrap:ident, $unwrap:ident) => {
        extern "C" {
            pub fn $wrap(
                image: *mut u8,
                image_length: usize,
                header: *const u8,
                header_length: usize,
                body: *const u8,
                body_length: usize,
                out: *mut u8,
                out_length: usize,
            ) -> u8;
            pub fn $unwrap(
                image: *mut u8,
                image_length: usize,
                header: *const u8,
                header_length: usize,
                ciphertext: *const u8,
                ciphertext_length: usize,
                tag: *const u8,
                tag_length: usize,
                body: *mut u8,
                body_length: usize,
            ) -> u8;
        }

        /// Wraps a pair: ciphertext, then tag, go to the first bytes of `out`.
        #[inline]
        pub fn wrap(image: &mut [u8], header: &[u8], body: &[u8], out: &mut [u8]) -> u8 {
            // SAFETY: each pointer and length are those of one slice, lent for the call.
            unsafe {
                $wrap(
                    image.as_mut_ptr(),
                    image.len(),
                    header.as_ptr(),
                    header.len(),
                    body.as_ptr(),
                    body.len(),
                    out.as_mut_ptr(),
                    out.len(),
                )
            }
        }

        /// Unwraps a pair: the plaintext goes to the first bytes of `body`.
        #[inline]
        pub fn unwrap(
            image: &mut [u8],
            header: &[u8],
            ciphertext: &[u8],
            tag: &[u8],
            body: &mut [u8],
        ) -> u8 {
            // SAFETY: each pointer and length are those of one slice, lent for the call.
            unsafe {
                $unwrap(
                    image.as_mut_ptr(),
                    image.len(),
                    header.as_ptr(),
                    header.len(),
                    ciphertext.as_ptr(),
                    ciphertext.len(),
                    tag.as_ptr(),
                    tag.len(),
                    body.as_mut_ptr(),
                    body.len(),
                )
            }
        }
    };
}

pub(crate) use pair_calls;
