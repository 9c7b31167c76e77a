//! The surface's SHA3-256 against the reference, with digests of every length around 32.

use compare::hashes::{digested, LONG, NEAR, TROUBLE};
use compare::random::Random;
use exports::desk::sha3_256;

/// Holds a digest to the reference's, lent so many bytes.
fn check(message: &[u8], length: usize) {
    let seen = digested(sha3_256, message, &vec![0x5A; length]);
    assert_eq!(seen.answer, if length < 32 { 6 } else { 0 });
}

#[test]
fn every_short_message_into_every_short_digest() {
    let bytes = Random::new(71).bytes(500);
    for length in 0..=bytes.len() {
        for digest in 0..=40 {
            check(&bytes[..length], digest);
        }
    }
}

#[test]
fn long_messages() {
    let bytes = Random::new(72).bytes(1_048_576);
    for length in LONG {
        for digest in [31, 32, 300] {
            check(&bytes[..length], digest);
        }
    }
}

#[test]
fn messages_of_one_byte_repeated() {
    for value in TROUBLE {
        for length in NEAR {
            check(&vec![value; length], 32);
        }
    }
}
