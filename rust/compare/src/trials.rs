//! What wrap and unwrap of every archive must stand, each a test where `session_tests` is called.
//!
//! Sessions come from the reference: an archive's own open may not take every setting.

use crate::random::Random;
use crate::sessions::{
    flip, hand_made, random_image, stated_tag, string, tag_length, Calls, Letter, Seen,
};
use reference::desk::IMAGE;
use reference::spongewrap::Session;

/// Makes a test of every trial, over the calls of one archive.
#[macro_export]
macro_rules! session_tests {
    ($calls:expr) => {
        $crate::session_tests! { $calls =>
            mixtures_of_wraps_and_unwraps
            letters_out_of_their_order
            every_single_bit_of_a_letter
            every_single_bit_of_an_image
            tags_of_other_lengths
            every_tag_length_at_both_rates
            every_short_header_and_body
            every_output_length
            lengths_at_the_limits
            images_of_other_lengths
            sessions_made_by_hand
            sessions_of_random_bytes
            refusals_in_their_order
        }
    };
    ($calls:expr => $($trial:ident)*) => {
        $(
            #[test]
            fn $trial() {
                $crate::trials::$trial(&$calls);
            }
        )*
    };
}

/// A session's image, fresh from open.
fn opened(rate: u16, tag: usize, key: &[u8]) -> Vec<u8> {
    let session = Session::open(key, rate, tag as u16).unwrap();
    session.to_image().to_vec()
}

/// A session of random settings, and its tag length.
fn fresh(random: &mut Random) -> (Vec<u8>, usize) {
    let (rate, tag) = (random.pick(&[136, 168]), tag_length(random).into());
    let key_length = 16 + random.below(241);
    (opened(rate, tag, &random.bytes(key_length)), tag)
}

/// Wraps a random pair; first, now and then, into a buffer that is too short.
fn letter(random: &mut Random, calls: &Calls, image: &[u8], tag: usize) -> (Seen, Letter, Vec<u8>) {
    let (header, body) = (string(random), string(random));
    let needed = body.len() + tag;
    if random.below(4) == 0 {
        let short = random.pick(&[0, body.len(), needed - 1]);
        let seen = calls.wrapped(image, &header, &body, &random.bytes(short));
        assert_eq!(seen.answer, 6);
    }
    let room = needed + random.pick(&[0, 0, 1, 50]);
    let seen = calls.wrapped(image, &header, &body, &random.bytes(room));
    assert_eq!(seen.answer, 0);
    let letter = Letter::new(&header, &seen.lent, body.len(), tag);
    (seen, letter, body)
}

/// Two ends take turns at wrapping; what arrives is damaged now and then before it comes whole.
pub fn mixtures_of_wraps_and_unwraps(calls: &Calls) {
    let mut random = Random::new(21);
    for _ in 0..400 {
        let (image, tag) = fresh(&mut random);
        let mut ends = [image.clone(), image];
        for _ in 0..10 {
            let sender = random.below(2);
            let (sent, letter, body) = letter(&mut random, calls, &ends[sender], tag);
            let receiver = &ends[1 - sender];
            for _ in 0..random.below(3) {
                let room = random.bytes(body.len() + 150);
                let seen = calls.unwrapped(receiver, &letter.damaged(&mut random), &room);
                assert_eq!((seen.answer, &seen.image), (8, receiver));
                assert!(seen.lent == room);
            }
            let spare = random.pick(&[0, 0, 1, 50]);
            let room = random.bytes(body.len() + spare);
            let got = calls.unwrapped(receiver, &letter, &room);
            assert_eq!((got.answer, &got.image), (0, &sent.image));
            assert!(got.lent[..body.len()] == body);
            ends = [sent.image, got.image];
        }
    }
}

/// A letter too early, too late, or come twice is refused; the session goes on all the same.
pub fn letters_out_of_their_order(calls: &Calls) {
    let mut random = Random::new(22);
    for _ in 0..50 {
        let (start, tag) = fresh(&mut random);
        let (first, one, body) = letter(&mut random, calls, &start, tag);
        let (second, two, _) = letter(&mut random, calls, &first.image, tag);
        let room = random.bytes(1000);
        assert_eq!(calls.unwrapped(&start, &two, &room).answer, 8);
        assert_eq!(calls.unwrapped(&first.image, &one, &room).answer, 8);
        assert_eq!(calls.unwrapped(&second.image, &one, &room).answer, 8);
        let got = calls.unwrapped(&start, &one, &room);
        assert_eq!(got.image, first.image);
        assert!(got.lent[body.len()..] == room[body.len()..]);
        assert_eq!(calls.unwrapped(&got.image, &two, &room).image, second.image);
    }
}

/// Every bit of header, ciphertext and tag counts, and all these refusals look alike.
pub fn every_single_bit_of_a_letter(calls: &Calls) {
    let mut random = Random::new(23);
    for (rate, tag) in [(136, 16), (168, 200)] {
        let start = opened(rate, tag, &random.bytes(32));
        let (header, body) = (random.bytes(20), random.bytes(180));
        let sent = calls.wrapped(&start, &header, &body, &vec![0; body.len() + tag]);
        let letter = Letter::new(&header, &sent.lent, body.len(), tag);
        let room = random.bytes(body.len());
        for part in 0..3 {
            for bit in 0..8 * letter.0[part].len() {
                let mut letter = letter.clone();
                flip(&mut letter.0[part], bit);
                let seen = calls.unwrapped(&start, &letter, &room);
                assert_eq!((seen.answer, &seen.image), (8, &start));
                assert!(seen.lent == room);
            }
        }
    }
}

/// Every bit of an image counts: what it was before is never wrapped or unwrapped with.
pub fn every_single_bit_of_an_image(calls: &Calls) {
    let mut random = Random::new(33);
    let (start, tag) = (opened(136, 16, &random.bytes(32)), 16);
    let (sent, letter, body) = letter(&mut random, calls, &start, tag);
    for bit in 0..8 * IMAGE {
        let mut image = start.clone();
        flip(&mut image, bit);
        let room = random.bytes(body.len() + 256);
        let wrapped = calls.wrapped(&image, &letter.0[0], &body, &room);
        assert_ne!(wrapped.image, sent.image, "bit {bit}");
        let got = calls.unwrapped(&image, &letter, &room);
        assert_ne!(got.image, sent.image, "bit {bit}");
    }
}

/// Tags cut short or drawn out are refused, though all bytes that they share are right.
pub fn tags_of_other_lengths(calls: &Calls) {
    let mut random = Random::new(24);
    for tag in [16, 17, 135, 136, 137, 255, 256] {
        let start = opened(136, tag, &random.bytes(16));
        let (_, letter, body) = letter(&mut random, calls, &start, tag);
        for other in [0, 1, 15, 16, 17, 134, 135, 136, 137, 255, 256, 257, 1000] {
            let mut letter = letter.clone();
            letter.0[2].resize(other, 0);
            let expected = if other == tag { 0 } else { 8 };
            let seen = calls.unwrapped(&start, &letter, &vec![0x5A; body.len()]);
            assert_eq!(seen.answer, expected, "{other} in place of {tag}");
        }
    }
}

pub fn every_tag_length_at_both_rates(calls: &Calls) {
    let mut random = Random::new(25);
    for rate in [136, 168] {
        for tag in 16..=256 {
            let start = opened(rate, tag, &random.bytes(16));
            let (sent, letter, body) = letter(&mut random, calls, &start, tag);
            let got = calls.unwrapped(&start, &letter, &vec![0x5A; body.len()]);
            assert_eq!((got.answer, got.image), (0, sent.image));
        }
    }
}

pub fn every_short_header_and_body(calls: &Calls) {
    let mut random = Random::new(26);
    let bytes = random.bytes(520);
    for rate in [136, 168] {
        let start = opened(rate, 16, &random.bytes(16));
        for length in 0..=bytes.len() {
            for (header, body) in [(length, 5), (5, length)] {
                let (header, body) = (&bytes[..header], &bytes[..body]);
                let sent = calls.wrapped(&start, header, body, &vec![0x5A; body.len() + 17]);
                let letter = Letter::new(header, &sent.lent, body.len(), 16);
                let got = calls.unwrapped(&start, &letter, &vec![0x5A; body.len() + 1]);
                assert_eq!((got.answer, got.image), (0, sent.image));
            }
        }
    }
}

/// Outputs of every length up to the one that is needed, and a little past it.
pub fn every_output_length(calls: &Calls) {
    let mut random = Random::new(34);
    for (rate, tag, body) in [(136, 16, 0), (136, 16, 140), (168, 170, 10)] {
        let start = opened(rate, tag, &random.bytes(32));
        let (header, body) = (random.bytes(20), random.bytes(body));
        let needed = body.len() + tag;
        let whole = calls.wrapped(&start, &header, &body, &vec![0; needed]);
        let letter = Letter::new(&header, &whole.lent, body.len(), tag);
        for room in 0..needed + 4 {
            let room = random.bytes(room);
            let sent = calls.wrapped(&start, &header, &body, &room);
            assert_eq!(sent.answer, if room.len() < needed { 6 } else { 0 });
            assert!(sent.answer == 0 || sent.image == start && sent.lent == room);
            let got = calls.unwrapped(&start, &letter, &room);
            assert_eq!(got.answer, if room.len() < body.len() { 6 } else { 0 });
            assert!(got.answer == 0 || got.image == start && got.lent == room);
        }
    }
}

pub fn lengths_at_the_limits(calls: &Calls) {
    let mut random = Random::new(27);
    let bytes = random.bytes(1_048_577);
    for (rate, tag) in [(136, 16), (168, 256)] {
        let start = opened(rate, tag, &random.bytes(256));
        for (header, body) in [(65_535, 0), (0, 1_048_576), (65_535, 1_048_576)] {
            let (header, body) = (&bytes[..header], &bytes[..body]);
            let sent = calls.wrapped(&start, header, body, &vec![0x5A; body.len() + tag]);
            let letter = Letter::new(header, &sent.lent, body.len(), tag);
            let got = calls.unwrapped(&start, &letter, &vec![0x5A; body.len()]);
            assert_eq!((got.answer, got.image), (0, sent.image));
            assert!(got.lent == body);
        }
        for (header, body, refusal) in [(65_536, 0, 4), (0, 1_048_577, 5), (65_536, 1_048_577, 4)] {
            let (header, body) = (&bytes[..header], &bytes[..body]);
            let room = vec![0x5A; body.len() + tag];
            assert_eq!(calls.wrapped(&start, header, body, &room).answer, refusal);
            let letter = Letter::new(header, &room, body.len(), tag);
            assert_eq!(calls.unwrapped(&start, &letter, &room).answer, refusal);
        }
    }
}

/// An image of another length is refused 6, whatever else is wrong.
pub fn images_of_other_lengths(calls: &Calls) {
    let mut random = Random::new(29);
    for length in (0..=220).chain([432]).filter(|length| *length != IMAGE) {
        let image = random.bytes(length);
        for (header, body) in [(5, 10), (65_536, 1_048_577)] {
            let (header, body, room) = (vec![2; header], vec![3; body], vec![0x5A; 40]);
            assert_eq!(calls.wrapped(&image, &header, &body, &room).answer, 6);
            let letter = Letter([header, body, vec![4; 16]]);
            assert_eq!(calls.unwrapped(&image, &letter, &room).answer, 6);
        }
    }
}

pub fn sessions_made_by_hand(calls: &Calls) {
    let mut random = Random::new(30);
    for session in hand_made(&mut random) {
        let (image, tag) = (session.to_image(), usize::from(session.tag));
        let (header, body) = (random.bytes(140), random.bytes(200));
        let sent = calls.wrapped(&image, &header, &body, &random.bytes(body.len() + tag));
        calls.wrapped(&image, &header, &body, &random.bytes(body.len()));
        let letter = Letter::new(&header, &sent.lent, body.len(), tag);
        let got = calls.unwrapped(&image, &letter, &random.bytes(body.len()));
        assert_eq!((got.answer, got.image), (sent.answer, sent.image.clone()));
        calls.unwrapped(&image, &letter, &random.bytes(body.len() - 1));
        let damaged = letter.damaged(&mut random);
        calls.unwrapped(&image, &damaged, &random.bytes(400));
        calls.unwrapped(&sent.image, &letter, &random.bytes(body.len()));
    }
}

pub fn sessions_of_random_bytes(calls: &Calls) {
    let mut random = Random::new(31);
    for _ in 0..1_000 {
        let image = random_image(&mut random);
        let (header, body) = (string(&mut random), string(&mut random));
        let sent = calls.wrapped(&image, &header, &body, &random.bytes(body.len() + 256));
        let letter = Letter::new(&header, &sent.lent, body.len(), stated_tag(&image));
        let got = calls.unwrapped(&image, &letter, &random.bytes(body.len()));
        assert_eq!((got.answer, got.image), (sent.answer, sent.image));
    }
}

/// When more than one thing is wrong, the order of document 01 picks the number.
pub fn refusals_in_their_order(calls: &Calls) {
    let bytes = Random::new(32).bytes(1_048_577 + 16);
    let sound = Session::open(&[1; 16], 136, 16).unwrap();
    for wrong in 0..256 {
        let is_wrong = |fault: usize| wrong >> fault & 1 == 1;
        let session = Session {
            rate: if is_wrong(0) { 137 } else { 136 },
            tag: if is_wrong(1) { 257 } else { 16 },
            pairs: if is_wrong(2) { 65_535 } else { 0 },
            ..sound.clone()
        };
        let header = &bytes[..if is_wrong(3) { 65_536 } else { 10 }];
        let body = &bytes[..if is_wrong(4) { 1_048_577 } else { 10 }];
        let short = usize::from(is_wrong(5));
        let numbers = [1, 3, 7, 4, 5, 6, 8, 8];
        let first = |until| {
            (0..until)
                .find(|fault| is_wrong(*fault))
                .map_or(0, |i| numbers[i])
        };
        let image = session.to_image();
        let sent = calls.wrapped(&image, header, body, &vec![0x5A; body.len() + 16 - short]);
        assert_eq!(sent.answer, first(6));
        let out = if sent.answer == 0 { &sent.lent } else { &bytes };
        let mut letter = Letter::new(header, out, body.len(), 16);
        letter.0[2][15] ^= u8::from(is_wrong(6));
        letter.0[2].resize(16 + usize::from(is_wrong(7)), 0);
        let got = calls.unwrapped(&image, &letter, &vec![0x5A; body.len() - short]);
        assert_eq!(got.answer, first(8));
    }
}
