//! Calls on sessions, which both archives have.

use crate::made_up::{blank, body, header, image, key, room};
use compare::random::Random;
use compare::sessions::{damage, opened, Calls, Letter};
use reference::desk::on_image;
use reference::spongewrap::Refusal;

/// An open at a rate and tag length, into an image that has held anything.
pub fn open(random: &mut Random, call: impl Fn(&[u8], &mut [u8]) -> u8, rate: u16, tag: u16) {
    let (key, image) = (key(random), blank(random));
    opened(call, rate, tag, &key, &image);
}

/// A wrap of any pair.
pub fn wrap(random: &mut Random, calls: Calls) {
    let (image, header, body) = (image(random), header(random), body(random));
    let room = room(random, body.len() + tag_of(&image));
    calls.wrapped(&image, &header, &body, &room);
}

/// An unwrap of what that very session has wrapped, of that with damage, or of any bytes.
pub fn unwrap(random: &mut Random, calls: Calls) {
    let (mut image, header, body) = (image(random), header(random), body(random));
    let mut letter = sealed(&image, &header, &body).unwrap_or_else(|_| {
        let tag = random.bytes(16);
        Letter([header, body, tag])
    });
    match random.below(6) {
        0 | 1 => letter = letter.damaged(random),
        2 => damage(random, &mut image),
        _ => {}
    }
    let room = room(random, letter.0[1].len());
    calls.unwrapped(&image, &letter, &room);
}

/// The letter that the reference makes of a pair, unless it refuses the image or the pair.
fn sealed(image: &[u8], header: &[u8], body: &[u8]) -> Result<Letter, Refusal> {
    let tag = tag_of(image);
    let mut out = vec![0; body.len() + tag];
    on_image(&mut image.to_vec(), |session| {
        session.wrap(header, body, &mut out)
    })?;
    Ok(Letter::new(header, &out, body.len(), tag))
}

/// The tag length that an image states, if it has one; a wild one is not worth its buffer.
fn tag_of(image: &[u8]) -> usize {
    match image.get(202..204) {
        Some(&[high, low]) => usize::from(u16::from_be_bytes([high, low])).min(300),
        _ => 16,
    }
}
