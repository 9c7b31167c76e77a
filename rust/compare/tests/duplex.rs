//! The library's duplex object against the reference: answers, objects and every byte of every
//! output.

use compare::buffers::Seen;
use compare::duplex::{made, object, OBJECT};
use compare::random::Random;
use compare::sessions::string;
use exports::probe::duplex::{duplexing, new};

/// One duplexing by both into a buffer that holds `room` before. The limits alone say whether it is
/// done, and if it is not, everything is left as it was.
fn duplexed(bytes: &[u8], piece: &[u8], frame: bool, room: &[u8]) -> Seen<u8> {
    let seen = compare::duplex::duplexed(duplexing, bytes, piece, frame, room);
    let rate = usize::from(u16::from_be_bytes([bytes[200], bytes[201]]));
    let done = [136, 168].contains(&rate) && piece.len() < rate && room.len() <= rate;
    assert_eq!(seen.answer, u8::from(!done));
    assert!(done || seen.image == bytes && seen.lent == room);
    seen
}

/// An object with any state.
fn any_object(random: &mut Random, rate: u16) -> [u8; OBJECT] {
    let state = random.bytes(200).try_into().unwrap();
    object(&state, rate)
}

/// Every mixture of a piece and an output up to the rate, and a little past it.
#[test]
fn pieces_and_outputs_of_every_length() {
    let mut random = Random::new(71);
    for rate in [136, 168] {
        let (bytes, room) = (random.bytes(rate + 2), random.bytes(rate + 2));
        let start = any_object(&mut random, rate as u16);
        for piece in 0..=rate + 2 {
            for out in 0..=rate + 2 {
                let frame = random.below(2) == 0;
                duplexed(&start, &bytes[..piece], frame, &room[..out]);
            }
        }
    }
}

/// The frame bit counts for every piece.
#[test]
fn both_frames() {
    let mut random = Random::new(72);
    for rate in [136, 168] {
        let start = any_object(&mut random, rate as u16);
        for length in 0..rate {
            let piece = random.bytes(length);
            let [clear, set] =
                [false, true].map(|frame| duplexed(&start, &piece, frame, &[0x5A; 136]));
            assert!(clear.image != set.image && clear.lent != set.lent);
        }
    }
}

#[test]
fn rates_that_are_none() {
    let mut random = Random::new(73);
    for rate in [
        0, 1, 2, 135, 137, 144, 167, 169, 200, 201, 392, 424, 34_816, 43_008, 65_535,
    ] {
        let start = any_object(&mut random, rate);
        for (piece, out) in [(0, 0), (0, 136), (1, 1), (134, 300), (136, 0), (300, 300)] {
            let (piece, room) = (random.bytes(piece), random.bytes(out));
            assert_eq!(duplexed(&start, &piece, false, &room).answer, 1);
            assert_eq!(duplexed(&start, &piece, true, &room).answer, 1);
        }
    }
}

/// Each call goes on from the object that the last one left, done or not.
#[test]
fn chains_of_calls() {
    let mut random = Random::new(74);
    for _ in 0..200 {
        let rate = random.pick(&[136, 168]);
        let mut object = made(new, rate, &random.bytes(OBJECT)).image;
        for _ in 0..40 {
            let (piece, frame) = (string(&mut random), random.below(2) == 0);
            object = duplexed(&object, &piece, frame, &string(&mut random)).image;
        }
    }
}

#[test]
fn fresh_objects_of_every_rate() {
    let before = Random::new(75).bytes(OBJECT);
    for rate in 0..=u16::MAX {
        let seen = made(new, rate, &before);
        assert_eq!((seen.answer, &seen.image[..200]), (0, &[0; 200][..]));
    }
}

#[test]
fn objects_of_other_lengths() {
    let mut random = Random::new(76);
    for length in [0, 1, 199, 200, 201, 203, 216, 404] {
        let bytes = random.bytes(length);
        assert_eq!(made(new, 136, &bytes).answer, 6);
        let seen = compare::duplex::duplexed(duplexing, &bytes, b"piece", true, &[0x5A; 20]);
        assert_eq!(seen.answer, 6);
    }
}

/// An empty slice of Rust's points to nothing; neither side may look there.
#[test]
fn empty_slices() {
    let mut object = [0x5A; OBJECT];
    assert_eq!(new(168, &mut object), 0);
    assert_eq!(duplexing(&mut object, &[], true, &mut []), 0);
    assert_eq!(new(168, &mut []), 6);
    assert_eq!(duplexing(&mut [], &[], true, &mut []), 6);
}
