//! The library's hashes against the reference: every short length, and lengths to 1 MiB.

use compare::hashes::{digested, filled, Shake, LONG, NEAR, TROUBLE};
use compare::random::Random;
use exports::desk::sha3_256;
use exports::probe::hashes::{shake128, shake256};
use reference::sponge;

/// Both SHAKEs, the library's beside the reference's.
const SHAKES: [(Shake, Shake); 2] = [(shake128, sponge::shake128), (shake256, sponge::shake256)];

/// Output lengths around the digest's and around both rates.
const ROOMS: [usize; 10] = [0, 1, 31, 32, 135, 136, 137, 168, 169, 400];

/// Holds both SHAKEs to the reference for a message and an output length.
fn check_shakes(message: &[u8], length: usize) {
    for (ours, theirs) in SHAKES {
        filled(ours, theirs, message, &vec![0x5A; length]);
    }
}

/// Holds SHA3-256 to the reference for a message and an output length, too short or not.
fn check_sha3_256(message: &[u8], length: usize) {
    let seen = digested(sha3_256, message, &vec![0x5A; length]);
    assert_eq!(seen.answer, if length < 32 { 6 } else { 0 });
}

#[test]
fn every_short_message_in_sha3_256() {
    let bytes = Random::new(11).bytes(1000);
    for length in 0..=bytes.len() {
        for room in ROOMS {
            check_sha3_256(&bytes[..length], room);
        }
    }
}

#[test]
fn every_short_message_in_both_shakes() {
    let bytes = Random::new(12).bytes(1000);
    for length in 0..=bytes.len() {
        for room in ROOMS {
            check_shakes(&bytes[..length], room);
        }
    }
}

#[test]
fn long_messages() {
    let bytes = Random::new(13).bytes(1_048_576);
    for length in LONG {
        check_sha3_256(&bytes[..length], 32);
        check_shakes(&bytes[..length], 32);
    }
}

#[test]
fn long_outputs() {
    for length in LONG {
        check_shakes(b"a long output", length);
    }
}

#[test]
fn messages_of_one_byte_repeated() {
    for value in TROUBLE {
        for length in NEAR {
            check_sha3_256(&vec![value; length], 32);
            check_shakes(&vec![value; length], 200);
        }
    }
}

/// An empty slice of Rust's points to nothing; neither side may look there.
#[test]
fn empty_slices() {
    let mut out = [0x5A; 32];
    assert_eq!(sha3_256(&[], &mut out), 0);
    assert_eq!(out, sponge::sha3_256(&[]));
    assert_eq!(sha3_256(&[], &mut []), 6);
    shake128(&[], &mut []);
    shake256(&[], &mut []);
}
