//! OpenSSL's functions, looked up while the program runs: nothing of it is needed to link.

use std::ffi::{c_char, c_int, c_void, CStr};
use std::ptr::{null, null_mut};

/// One of OpenSSL's objects, or a function's address.
pub type Object = *mut c_void;

extern "C" {
    fn dlopen(file: *const c_char, flags: c_int) -> Object;
    fn dlsym(library: Object, name: *const c_char) -> Object;
}

/// Resolve each name at its first use.
const LAZILY: c_int = 1;

/// The function of that name in libcrypto, if it is installed.
///
/// # Safety
/// `F` is a function pointer of the type that OpenSSL's manual gives for the name.
pub unsafe fn function<F: Copy>(name: &CStr) -> Option<F> {
    assert_eq!(size_of::<F>(), size_of::<Object>());
    let library = dlopen(c"libcrypto.so.3".as_ptr(), LAZILY);
    if library.is_null() {
        return None;
    }
    let address = dlsym(library, name.as_ptr());
    (!address.is_null()).then(|| std::mem::transmute_copy(&address))
}

/// Finds an algorithm by its name.
pub type Fetch = unsafe extern "C" fn(Object, *const c_char, *const c_char) -> Object;

/// Makes an empty context.
pub type New = unsafe extern "C" fn() -> Object;

/// Ends a message and writes a digest of the function's own length.
type Finish = unsafe extern "C" fn(Object, *mut u8, *mut u32) -> c_int;

/// Ends a message and writes as many bytes as asked.
type FinishLong = unsafe extern "C" fn(Object, *mut u8, usize) -> c_int;

/// One of the two ways to end a message, with 32 bytes of output.
type Ending = Box<dyn Fn(Object, &mut [u8; 32]) -> c_int>;

/// A hash function, with one context used again for each message.
pub struct Digest {
    context: Object,
    algorithm: Object,
    begin: unsafe extern "C" fn(Object, Object, Object) -> c_int,
    update: unsafe extern "C" fn(Object, *const u8, usize) -> c_int,
    ending: Ending,
}

impl Digest {
    /// SHA3-256, if OpenSSL is installed.
    pub fn sha3_256() -> Option<Digest> {
        // SAFETY: the type is that of the manual page, and the digest has 32 bytes.
        let finish: Finish = unsafe { function(c"EVP_DigestFinal_ex")? };
        let ending = move |context, out: &mut [u8; 32]| unsafe {
            finish(context, out.as_mut_ptr(), null_mut())
        };
        Digest::find(c"SHA3-256", Box::new(ending))
    }

    /// SHAKE128, if OpenSSL is installed.
    pub fn shake128() -> Option<Digest> {
        // SAFETY: the type is that of the manual page, and 32 bytes are asked for.
        let finish: FinishLong = unsafe { function(c"EVP_DigestFinalXOF")? };
        let ending = move |context, out: &mut [u8; 32]| unsafe {
            finish(context, out.as_mut_ptr(), out.len())
        };
        Digest::find(c"SHAKE128", Box::new(ending))
    }

    /// The hash function of that name.
    fn find(name: &CStr, ending: Ending) -> Option<Digest> {
        // SAFETY: the types are those of the manual pages of each name.
        unsafe {
            let fetch: Fetch = function(c"EVP_MD_fetch")?;
            let new: New = function(c"EVP_MD_CTX_new")?;
            let algorithm = fetch(null_mut(), name.as_ptr(), null());
            let context = new();
            (!algorithm.is_null() && !context.is_null()).then_some(Digest {
                context,
                algorithm,
                begin: function(c"EVP_DigestInit_ex")?,
                update: function(c"EVP_DigestUpdate")?,
                ending,
            })
        }
    }

    /// Hashes a message to 32 bytes.
    pub fn hash(&self, message: &[u8], out: &mut [u8; 32]) {
        let context = self.context;
        // SAFETY: context and algorithm are alive, and the message is one slice.
        let begun = unsafe { (self.begin)(context, self.algorithm, null_mut()) };
        let updated = unsafe { (self.update)(context, message.as_ptr(), message.len()) };
        assert_eq!([begun, updated, (self.ending)(context, out)], [1; 3]);
    }
}
