//! Calls on sessions by both sides, and what they are called with.

use crate::buffers::{self, compared};
use crate::random::Random;
use reference::desk::{self, on_image, IMAGE};
use reference::spongewrap::{Refusal, Session, ROOM};

/// What both sides leave of a call.
pub type Seen = buffers::Seen<u8>;

/// A refusal's number, or 0.
pub fn number(answer: Result<(), Refusal>) -> u8 {
    answer.err().unwrap_or(0)
}

/// Opens a session by both; the library's call knows the rate and the tag length already.
pub fn opened(
    open: impl Fn(&[u8], &mut [u8]) -> u8,
    rate: u16,
    tag: u16,
    key: &[u8],
    image: &[u8],
) -> Seen {
    opened_as(open, key, image, |image| desk::open(rate, tag, key, image))
}

/// Opens a session by both without settings; a refused open leaves the session of zeros.
pub fn opened_by_default(open: impl Fn(&[u8], &mut [u8]) -> u8, key: &[u8], image: &[u8]) -> Seen {
    opened_as(open, key, image, |image| {
        let image = <&mut [u8; IMAGE]>::try_from(image).map_err(|_| ROOM)?;
        *image = [0; IMAGE];
        desk::open(136, 16, key, image)
    })
}

/// Opens a session by the library's call, and into a like image by the reference's.
fn opened_as(
    library: impl Fn(&[u8], &mut [u8]) -> u8,
    key: &[u8],
    image: &[u8],
    reference: impl FnOnce(&mut [u8]) -> Result<(), Refusal>,
) -> Seen {
    compared(
        image,
        &[],
        [key],
        |image, _, [key]| library(key, image),
        |image, _| number(reference(image)),
    )
}

/// A wrap by image, header and body into an output.
type Wrap = fn(&mut [u8], &[u8], &[u8], &mut [u8]) -> u8;

/// An unwrap by image, header, ciphertext and tag into a body.
type Unwrap = fn(&mut [u8], &[u8], &[u8], &[u8], &mut [u8]) -> u8;

/// The two calls on pairs, as one archive exports them.
#[derive(Clone, Copy)]
pub struct Calls {
    pub wrap: Wrap,
    pub unwrap: Unwrap,
}

impl Calls {
    /// Wraps a pair by both into a buffer that holds `room` before.
    pub fn wrapped(&self, image: &[u8], header: &[u8], body: &[u8], room: &[u8]) -> Seen {
        compared(
            image,
            room,
            [header, body],
            |image, out, [header, body]| (self.wrap)(image, header, body, out),
            |image, out| number(on_image(image, |session| session.wrap(header, body, out))),
        )
    }

    /// Unwraps a letter by both into a buffer that holds `room` before.
    pub fn unwrapped(&self, image: &[u8], letter: &Letter, room: &[u8]) -> Seen {
        let parts = letter.0.each_ref().map(Vec::as_slice);
        let [header, ciphertext, tag] = parts;
        compared(
            image,
            room,
            parts,
            |image, body, [header, ciphertext, tag]| {
                (self.unwrap)(image, header, ciphertext, tag, body)
            },
            |image, body| {
                number(on_image(image, |session| {
                    session.unwrap(header, ciphertext, tag, body)
                }))
            },
        )
    }
}

/// A wrapped pair on its way: header, ciphertext and tag.
#[derive(Clone)]
pub struct Letter(pub [Vec<u8>; 3]);

impl Letter {
    /// The letter that a wrap has left in its buffer.
    pub fn new(header: &[u8], out: &[u8], body: usize, tag: usize) -> Self {
        Letter([header, &out[..body], &out[body..body + tag]].map(<[u8]>::to_vec))
    }

    /// The letter with one part drawn out, cut short, or changed in one bit.
    pub fn damaged(&self, random: &mut Random) -> Letter {
        let (mut letter, part) = (self.clone(), random.below(3));
        damage(random, &mut letter.0[part]);
        letter
    }
}

/// Draws a string out, cuts it short, or changes it in one bit.
pub fn damage(random: &mut Random, string: &mut Vec<u8>) {
    match random.below(4) {
        0 => string.push(random.word() as u8),
        1 => string.extend(random.bytes(136)),
        _ if string.is_empty() => string.push(0),
        2 => drop(string.pop()),
        _ => {
            let bit = random.below(8 * string.len());
            flip(string, bit);
        }
    }
}

/// Turns one bit of a string.
pub fn flip(string: &mut [u8], bit: usize) {
    string[bit / 8] ^= 1 << (bit % 8);
}

/// Lengths around whole pieces of both rates, and others.
pub fn length(random: &mut Random) -> usize {
    let near = [
        0, 1, 2, 16, 134, 135, 136, 137, 166, 167, 168, 169, 270, 271, 334, 335,
    ];
    match random.below(3) {
        0 => random.below(700),
        _ => random.pick(&near),
    }
}

/// A string of such a length.
pub fn string(random: &mut Random) -> Vec<u8> {
    let length = length(random);
    random.bytes(length)
}

/// Tag lengths around both limits and around whole outputs of both rates, and others.
pub fn tag_length(random: &mut Random) -> u16 {
    let near = [16, 17, 32, 135, 136, 167, 168, 255, 256];
    match random.below(3) {
        0 => 16 + random.below(241) as u16,
        _ => random.pick(&near),
    }
}

/// The numbers that sessions made by hand have, tame and wild.
pub const RATES: [u16; 6] = [0, 135, 136, 137, 168, 65_535];
pub const TAGS: [u16; 5] = [0, 15, 16, 256, 257];
pub const PAIRS: [u32; 5] = [0, 65_534, 65_535, 65_536, u32::MAX];
pub const CALLS: [u64; 4] = [0, 540_991_427, 540_991_428, u64::MAX];

/// Sessions made by hand from every mixture of those numbers.
pub fn hand_made(random: &mut Random) -> Vec<Session> {
    let mut sessions = Vec::new();
    for rate in RATES {
        for tag in TAGS {
            for pairs in PAIRS {
                for calls in CALLS {
                    sessions.push(Session {
                        lanes: std::array::from_fn(|_| random.word()),
                        rate,
                        tag,
                        pairs,
                        calls,
                    });
                }
            }
        }
    }
    sessions
}

/// An image of random bytes, with a sound rate and tag length and room for pairs in most.
pub fn random_image(random: &mut Random) -> Vec<u8> {
    let mut image = random.bytes(IMAGE);
    image[200..202].copy_from_slice(&random.pick(&[136_u16, 168, 392]).to_be_bytes());
    image[202..204].copy_from_slice(&tag_length(random).to_be_bytes());
    image[204..206].fill(random.pick(&[0, 0, 1]));
    image[208..212].fill(random.pick(&[0, 0, 1]));
    image
}

/// The tag length that an image states.
pub fn stated_tag(image: &[u8]) -> usize {
    u16::from_be_bytes([image[202], image[203]]).into()
}
