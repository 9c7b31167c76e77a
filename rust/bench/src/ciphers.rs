//! Rows of OpenSSL's authenticated ciphers, for scale beside the library's wrap.

use crate::messages::{row, Call, SIZES};
use crate::openssl::{function, Fetch, New, Object};
use crate::sessions::HEADER;
use crate::table::{Maker, Row};
use std::ffi::{c_int, CStr};
use std::ptr::{null, null_mut};

/// The control call that reads the tag off.
const GET_TAG: c_int = 0x10;

/// All rows of the ciphers.
pub fn rows() -> Vec<Row> {
    let both = |size| [aes_256_gcm(size), chacha20_poly1305(size)];
    SIZES.into_iter().flat_map(both).collect()
}

/// AES-256-GCM.
fn aes_256_gcm(size: usize) -> Row {
    cipher_row(c"AES-256-GCM", size)
}

/// ChaCha20-Poly1305.
fn chacha20_poly1305(size: usize) -> Row {
    cipher_row(c"ChaCha20-Poly1305", size)
}

/// A row of an OpenSSL cipher, which has no permutation to count.
fn cipher_row(name: &CStr, size: usize) -> Row {
    let call = Cipher::find(name).map(|cipher| -> Call {
        let mut out = vec![0; size + 16];
        Box::new(move |body| cipher.seal(body, &mut out))
    });
    row(name.to_str().unwrap(), Maker::OpenSsl, size, 0, call)
}

/// Sets a context's cipher, engine, key and nonce; what is null stays as it was.
type Begin = unsafe extern "C" fn(Object, Object, Object, *const u8, *const u8) -> c_int;

/// Takes the next bytes and writes what they become, if there is somewhere to write.
type Update = unsafe extern "C" fn(Object, *mut u8, *mut c_int, *const u8, c_int) -> c_int;

/// A cipher in a context that has its key already.
struct Cipher {
    context: Object,
    begin: Begin,
    update: Update,
    finish: unsafe extern "C" fn(Object, *mut u8, *mut c_int) -> c_int,
    control: unsafe extern "C" fn(Object, c_int, c_int, *mut u8) -> c_int,
}

impl Cipher {
    /// The cipher of that name, if OpenSSL is installed and has it.
    fn find(name: &CStr) -> Option<Cipher> {
        // SAFETY: the types are those of the manual pages; both ciphers have keys of 32 bytes.
        unsafe {
            let fetch: Fetch = function(c"EVP_CIPHER_fetch")?;
            let new: New = function(c"EVP_CIPHER_CTX_new")?;
            let begin: Begin = function(c"EVP_EncryptInit_ex")?;
            let algorithm = fetch(null_mut(), name.as_ptr(), null());
            let context = new();
            if algorithm.is_null() || context.is_null() {
                return None;
            }
            let key = [0x43; 32];
            assert_eq!(
                begin(context, algorithm, null_mut(), key.as_ptr(), null()),
                1
            );
            Some(Cipher {
                context,
                begin,
                update: function(c"EVP_EncryptUpdate")?,
                finish: function(c"EVP_EncryptFinal_ex")?,
                control: function(c"EVP_CIPHER_CTX_ctrl")?,
            })
        }
    }

    /// Seals a body under the fixed header and nonce into ciphertext and tag.
    fn seal(&self, body: &[u8], out: &mut [u8]) {
        let (context, mut written) = (self.context, 0);
        let (ciphertext, tag) = out.split_at_mut(body.len());
        let text = ciphertext.as_mut_ptr();
        let (header_length, body_length) = (HEADER.len() as c_int, body.len() as c_int);
        // SAFETY: both ciphers have nonces of 12 bytes and tags of 16, write as many bytes as
        // they read, and write none for a header or at the end.
        let answers = unsafe {
            [
                (self.begin)(context, null_mut(), null_mut(), null(), [0; 12].as_ptr()),
                (self.update)(
                    context,
                    null_mut(),
                    &mut written,
                    HEADER.as_ptr(),
                    header_length,
                ),
                (self.update)(context, text, &mut written, body.as_ptr(), body_length),
                (self.finish)(context, tag.as_mut_ptr(), &mut written),
                (self.control)(context, GET_TAG, tag.len() as c_int, tag.as_mut_ptr()),
            ]
        };
        assert_eq!(answers, [1; 5]);
    }
}
