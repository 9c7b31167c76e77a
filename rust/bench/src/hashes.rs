//! Rows of the hashes: the library's beside OpenSSL's.

use crate::messages::{row, Call, SIZES};
use crate::openssl::Digest;
use crate::table::{Maker, Row};
use exports::desk::sha3_256;
use exports::probe::hashes::shake128;

/// A hash to 32 bytes by the library and by OpenSSL.
struct Hash {
    name: &'static str,
    rate: usize,
    library: fn(&[u8], &mut [u8]),
    openssl: fn() -> Option<Digest>,
}

const HASHES: [Hash; 2] = [
    Hash {
        name: "SHA3-256",
        rate: 136,
        library: |message, out| assert_eq!(sha3_256(message, out), 0),
        openssl: Digest::sha3_256,
    },
    Hash {
        name: "SHAKE128",
        rate: 168,
        library: shake128,
        openssl: Digest::shake128,
    },
];

/// All rows of the hashes.
pub fn rows() -> Vec<Row> {
    let pairs = HASHES
        .iter()
        .flat_map(|hash| SIZES.map(|size| hash.rows(size)));
    pairs.flatten().collect()
}

impl Hash {
    /// Both rows for messages of one size.
    fn rows(&self, size: usize) -> [Row; 2] {
        let row = |maker, call| row(self.name, maker, size, size / self.rate + 1, call);
        let openssl = (self.openssl)().map(by_openssl);
        [
            row(Maker::Library, Some(by_library(self.library))),
            row(Maker::OpenSsl, openssl),
        ]
    }
}

/// A call that hashes by the library.
fn by_library(hash: fn(&[u8], &mut [u8])) -> Call {
    let mut out = [0; 32];
    Box::new(move |message| hash(message, &mut out))
}

/// A call that hashes by OpenSSL.
fn by_openssl(digest: Digest) -> Call {
    let mut out = [0; 32];
    Box::new(move |message| digest.hash(message, &mut out))
}
