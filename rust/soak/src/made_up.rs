//! Arbitrary arguments, near the limits more often than chance would have them.

use compare::random::Random;
use compare::sessions::{damage, length, random_image, tag_length, CALLS, PAIRS, RATES, TAGS};
use reference::desk::IMAGE;
use reference::spongewrap::{Session, MOST_BODY, MOST_HEADER};

/// Whether something comes about that does so once in so many calls.
pub fn once_in(random: &mut Random, many: usize) -> bool {
    random.below(many) == 0
}

/// A length at a limit, or next to it.
pub fn around(random: &mut Random, limit: usize) -> usize {
    (limit + random.below(3)).saturating_sub(1)
}

/// A length of an output for which so much is needed.
pub fn room(random: &mut Random, needed: usize) -> Vec<u8> {
    let length = match random.below(4) {
        0 => around(random, needed),
        1 => random.below(needed + 300),
        _ => needed + random.pick(&[0, 0, 1, 50]),
    };
    random.bytes(length)
}

/// A string that is mostly short. Long ones are rare, for the reference is slow.
fn string(random: &mut Random, rare: usize, limit: usize) -> Vec<u8> {
    let length = match once_in(random, rare) {
        true => around(random, limit),
        false => length(random),
    };
    random.bytes(length)
}

/// A header of a pair.
pub fn header(random: &mut Random) -> Vec<u8> {
    string(random, 50, MOST_HEADER)
}

/// A body of a pair.
pub fn body(random: &mut Random) -> Vec<u8> {
    string(random, 500, MOST_BODY)
}

/// A message to hash.
pub fn message(random: &mut Random) -> Vec<u8> {
    string(random, 500, 1 << 20)
}

/// A key, too short or too long now and then.
pub fn key(random: &mut Random) -> Vec<u8> {
    let length = match random.below(4) {
        0 => around(random, 16),
        1 => around(random, 256),
        2 => random.below(300),
        _ => 16 + random.below(241),
    };
    random.bytes(length)
}

/// An image to open a session into, which has held anything; of another length now and then.
pub fn blank(random: &mut Random) -> Vec<u8> {
    let mut image = random.bytes(IMAGE);
    if once_in(random, 6) {
        damage(random, &mut image);
    }
    image
}

/// A session's image as it could be met: sound, with one number wild, with any bytes, or damaged.
pub fn image(random: &mut Random) -> Vec<u8> {
    let mut image = session(random).to_image().to_vec();
    match random.below(8) {
        0 => damage(random, &mut image),
        1 => image = random_image(random),
        2 => image = random.bytes(IMAGE),
        _ => {}
    }
    image
}

/// A session from an open, somewhere on its way, with a wild number now and then.
fn session(random: &mut Random) -> Session {
    let (rate, tag) = (random.pick(&[136, 168]), tag_length(random));
    let mut session = Session::open(&random.bytes(32), rate, tag).unwrap();
    session.lanes = std::array::from_fn(|_| random.word());
    wilder(random, &mut session);
    session
}

/// Changes one of a session's numbers, or none.
pub fn wilder(random: &mut Random, session: &mut Session) {
    match random.below(12) {
        0 => session.rate = random.pick(&RATES),
        1 => session.tag = random.pick(&TAGS),
        2 => session.pairs = random.pick(&PAIRS),
        3 => session.calls = random.pick(&CALLS),
        _ => {}
    }
}
