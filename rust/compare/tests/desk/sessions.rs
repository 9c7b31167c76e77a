//! The surface's sessions against the reference: answers, images and every byte of every buffer.

use compare::random::Random;
use compare::sessions::{string, Calls, Letter, Seen};
use exports::desk::{open, unwrap, wrap, RATE, TAG};
use reference::desk::IMAGE;
use reference::spongewrap::Session;

/// The surface's two calls on pairs.
const CALLS: Calls = Calls { wrap, unwrap };

compare::session_tests!(CALLS);

/// Opens a session by both, with the settings that the surface takes by itself.
fn opened(key: &[u8], image: &[u8]) -> Seen {
    compare::sessions::opened(open, RATE, TAG, key, image)
}

#[test]
fn opens_by_every_key_length() {
    let mut random = Random::new(61);
    for key in (0..=300).chain([1_000, 65_536]) {
        let image = random.bytes(IMAGE);
        let seen = opened(&random.bytes(key), &image);
        let well = (16..=256).contains(&key);
        assert_eq!(seen.answer, if well { 0 } else { 2 }, "key of {key}");
        assert!(well || seen.image == image);
    }
}

/// An image of another length is refused 6, whatever is wrong with the key.
#[test]
fn opens_into_images_of_every_length() {
    let mut random = Random::new(62);
    for length in (0..=220).chain([432, 65_752]) {
        for (key, refusal) in [(0, 2), (15, 2), (16, 0), (256, 0), (257, 2), (300, 2)] {
            let image = random.bytes(length);
            let seen = opened(&random.bytes(key), &image);
            let expected = if length == IMAGE { refusal } else { 6 };
            assert_eq!(seen.answer, expected, "key of {key}, image of {length}");
            assert!(expected == 0 || seen.image == image);
        }
    }
}

#[test]
fn an_open_takes_rate_136_and_tags_of_16_bytes() {
    let seen = opened(&[7; 32], &[0x5A; IMAGE]);
    assert_eq!(
        seen.image[200..],
        [0, 136, 0, 16, 0, 0, 0, 0, 0, 0, 0, 0, 0, 0, 0, 1]
    );
    let session = Session::open(&[7; 32], 136, 16).unwrap();
    assert_eq!(seen.image, session.to_image());
}

/// What the image held before an open is of no account.
#[test]
fn an_open_does_not_read_the_image() {
    let mut random = Random::new(63);
    let key = random.bytes(200);
    let first = opened(&key, &[0; IMAGE]).image;
    for _ in 0..100 {
        assert_eq!(opened(&key, &random.bytes(IMAGE)).image, first);
    }
}

/// Whole sessions through the surface alone, from its open on.
#[test]
fn sessions_from_open_to_many_pairs() {
    let mut random = Random::new(64);
    for _ in 0..50 {
        let key_length = 16 + random.below(241);
        let mut image = opened(&random.bytes(key_length), &[0; IMAGE]).image;
        for _ in 0..40 {
            let (header, body) = (string(&mut random), string(&mut random));
            let sent = CALLS.wrapped(&image, &header, &body, &random.bytes(body.len() + 16));
            let letter = Letter::new(&header, &sent.lent, body.len(), 16);
            let got = CALLS.unwrapped(&image, &letter, &random.bytes(body.len()));
            assert_eq!(
                (sent.answer, got.answer, got.image),
                (0, 0, sent.image.clone())
            );
            assert_eq!(got.lent, body);
            image = sent.image;
        }
    }
}
