//! The library's sessions against the reference: answers, images and every byte of every buffer.

use compare::random::Random;
use compare::sessions::{opened_by_default, Calls, Seen};
use exports::desk::{unwrap, wrap};
use exports::probe::sessions::{default_open, open};
use reference::desk::IMAGE;

compare::session_tests!(Calls { wrap, unwrap });

/// Opens a session by both.
fn opened(rate: u16, tag: u16, key: &[u8], image: &[u8]) -> Seen {
    let call = |key: &[u8], image: &mut [u8]| open(rate, tag, key, image);
    compare::sessions::opened(call, rate, tag, key, image)
}

#[test]
fn opens_within_and_past_every_limit() {
    let mut random = Random::new(28);
    let image = random.bytes(IMAGE);
    for rate in [0, 1, 68, 135, 136, 137, 167, 168, 169, 200, 392, 65_535] {
        for tag in [0, 1, 15, 16, 17, 255, 256, 257, 272, 65_535] {
            for key in [
                0, 1, 15, 16, 17, 134, 135, 136, 167, 168, 169, 255, 256, 257, 1_000,
            ] {
                let seen = opened(rate, tag, &random.bytes(key), &image);
                let well = [136, 168].contains(&rate)
                    && (16..=256).contains(&tag)
                    && (16..=256).contains(&key);
                assert_eq!(seen.answer == 0, well, "{rate} {tag} {key}");
                assert!(well || seen.image == image);
            }
        }
    }
}

#[test]
fn opens_by_every_key_length() {
    let mut random = Random::new(35);
    for key in 16..=256 {
        let (rate, tag) = (random.pick(&[136, 168]), random.pick(&[16, 256]));
        let seen = opened(rate, tag, &random.bytes(key), &random.bytes(IMAGE));
        assert_eq!(seen.answer, 0);
    }
}

/// The open that takes no settings takes rate 136 and tag 16, and gives zeros where it refuses.
#[test]
fn default_opens_by_every_key_length() {
    let mut random = Random::new(36);
    for length in (0..=300).chain([1_000, 65_536]) {
        let (key, before) = (random.bytes(length), random.bytes(IMAGE));
        let seen = opened_by_default(default_open, &key, &before);
        let well = (16..=256).contains(&length);
        assert_eq!(seen.answer, if well { 0 } else { 2 });
        let stated = opened(136, 16, &key, &[0; IMAGE]);
        assert_eq!(seen.image, stated.image, "key of {length}");
    }
    for length in [0, 1, 200, 215, 217, 432] {
        for key in [15, 16] {
            let (key, before) = (random.bytes(key), random.bytes(length));
            assert_eq!(opened_by_default(default_open, &key, &before).answer, 6);
        }
    }
}

/// An image of another length is refused 6, whatever else is wrong.
#[test]
fn opens_into_images_of_other_lengths() {
    let mut random = Random::new(29);
    for length in [0, 1, 200, 215, 217, 432] {
        let image = random.bytes(length);
        for (rate, key) in [(136, 16), (0, 0)] {
            assert_eq!(opened(rate, 16, &vec![1; key], &image).answer, 6);
        }
    }
}

/// An empty slice of Rust's points to nothing; neither side may look there.
#[test]
fn empty_slices() {
    let (mut sender, mut out) = ([0; IMAGE], [0; 16]);
    assert_eq!(open(136, 16, &[], &mut sender), 2);
    assert_eq!(default_open(&[], &mut sender), 2);
    assert_eq!(open(136, 16, &[1; 16], &mut sender), 0);
    let mut receiver = sender;
    assert_eq!(wrap(&mut sender, &[], &[], &mut []), 6);
    assert_eq!(wrap(&mut sender, &[], &[], &mut out), 0);
    assert_eq!(unwrap(&mut receiver, &[], &[], &[], &mut []), 8);
    assert_eq!(unwrap(&mut receiver, &[], &[], &out, &mut []), 0);
    assert_eq!(receiver, sender);
    assert_eq!(wrap(&mut [], &[], &[], &mut []), 6);
}
