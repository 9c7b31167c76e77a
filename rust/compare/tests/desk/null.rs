//! NULL with length 0 through the C surface, for every parameter and every mixture of them: it is
//! an empty buffer, as a pointer to anything else with length 0 is.

use compare::hashes::digested;
use compare::sessions::{opened, Calls, Letter};
use exports::desk::{
    feefledown_open, feefledown_sha3_256, feefledown_unwrap, feefledown_wrap, RATE, TAG,
};
use reference::desk::IMAGE;
use reference::spongewrap::Session;
use std::ptr::{null, null_mut};

/// A slice's pointer as a C program may pass it: NULL if there is nothing to point to.
fn pointer(slice: &[u8]) -> *const u8 {
    match slice {
        [] => null(),
        _ => slice.as_ptr(),
    }
}

/// The same of a slice to write.
fn pointer_mut(slice: &mut [u8]) -> *mut u8 {
    match slice {
        [] => null_mut(),
        _ => slice.as_mut_ptr(),
    }
}

fn open(key: &[u8], image: &mut [u8]) -> u8 {
    // SAFETY: each pointer and length are those of one slice, or NULL and 0.
    unsafe { feefledown_open(pointer(key), key.len(), pointer_mut(image), image.len()) }
}

fn sha3_256(message: &[u8], digest: &mut [u8]) -> u8 {
    // SAFETY: as above.
    unsafe {
        feefledown_sha3_256(
            pointer(message),
            message.len(),
            pointer_mut(digest),
            digest.len(),
        )
    }
}

fn wrap(image: &mut [u8], header: &[u8], body: &[u8], out: &mut [u8]) -> u8 {
    // SAFETY: as above.
    unsafe {
        feefledown_wrap(
            pointer_mut(image),
            image.len(),
            pointer(header),
            header.len(),
            pointer(body),
            body.len(),
            pointer_mut(out),
            out.len(),
        )
    }
}

fn unwrap(image: &mut [u8], header: &[u8], ciphertext: &[u8], tag: &[u8], body: &mut [u8]) -> u8 {
    // SAFETY: as above.
    unsafe {
        feefledown_unwrap(
            pointer_mut(image),
            image.len(),
            pointer(header),
            header.len(),
            pointer(ciphertext),
            ciphertext.len(),
            pointer(tag),
            tag.len(),
            pointer_mut(body),
            body.len(),
        )
    }
}

/// The surface's two calls on pairs, with NULL for whatever is empty.
const CALLS: Calls = Calls { wrap, unwrap };

/// Nothing, or the bytes, as the bit of that number says.
fn part(mixture: usize, bit: usize, bytes: &[u8]) -> &[u8] {
    match mixture >> bit & 1 {
        0 => &[],
        _ => bytes,
    }
}

/// A session's image, fresh from open.
fn image() -> [u8; IMAGE] {
    Session::open(&[1; 16], RATE, TAG).unwrap().to_image()
}

#[test]
fn opens() {
    let answers = [0, 1, 2, 3].map(|mixture| {
        let (key, image) = (part(mixture, 0, &[1; 16]), part(mixture, 1, &[0x5A; IMAGE]));
        opened(open, RATE, TAG, key, image).answer
    });
    assert_eq!(answers, [6, 6, 2, 0]);
}

#[test]
fn digests() {
    let answers = [0, 1, 2, 3].map(|mixture| {
        let (message, digest) = (part(mixture, 0, b"abc"), part(mixture, 1, &[0x5A; 32]));
        digested(sha3_256, message, digest).answer
    });
    assert_eq!(answers, [6, 6, 0, 0]);
}

/// Wrapped with and without header and body, and refused without an image or an output.
#[test]
fn wraps() {
    let (image, header, body) = (image(), [2; 20], [3; 140]);
    for mixture in 0..16 {
        let (header, body) = (part(mixture, 0, &header), part(mixture, 1, &body));
        let (image, room) = (part(mixture, 2, &image), part(mixture, 3, &[0x5A; 156]));
        let seen = CALLS.wrapped(image, header, body, room);
        assert_eq!(seen.answer, if mixture < 12 { 6 } else { 0 });
    }
}

/// Each letter that a session wraps, with any of its parts missing: it opens if none is.
#[test]
fn unwraps() {
    let (start, header, body) = (image(), [2; 20], [3; 140]);
    for whole in 0..4 {
        let (header, body) = (part(whole, 0, &header), part(whole, 1, &body));
        let sent = CALLS.wrapped(&start, header, body, &vec![0; body.len() + 16]);
        let Letter(letter) = Letter::new(header, &sent.lent, body.len(), 16);
        for mixture in 0..32 {
            let bit = |i: usize| part(mixture, i, &letter[i]).to_vec();
            let (image, room) = (part(mixture, 3, &start), part(mixture, 4, &[0x5A; 140]));
            let parts = std::array::from_fn(bit);
            let is_whole = parts == letter && !image.is_empty() && room.len() >= body.len();
            let got = CALLS.unwrapped(image, &Letter(parts), room);
            assert_eq!(got.answer == 0, is_whole);
            assert!(!is_whole || got.image == sent.image && got.lent[..body.len()] == *body);
        }
    }
}

/// Whole sessions in which many a header and body is empty, and images of every length from 0 on.
#[test]
fn sessions_with_empty_strings() {
    compare::trials::mixtures_of_wraps_and_unwraps(&CALLS);
    compare::trials::images_of_other_lengths(&CALLS);
}
