//! Calls on bundles by both sides.

use crate::buffers::{self, compared};
use crate::random::Random;
use crate::sessions::{damage, flip, string};
use reference::bundle::{self, Entry, Fault, Refused};
use reference::desk::on_image;
use reference::spongewrap::ROOM;

/// What both sides leave of a call.
pub type Seen = buffers::Seen<u64>;

/// An answer of the reference in the form that the library gives it.
fn coded(answer: Result<u64, Refused>) -> u64 {
    match answer {
        Ok(value) => 256 * value,
        Err(refusal) => refused(refusal.number.into(), refusal.place),
    }
}

/// The answer that refuses by a number at a place.
pub fn refused(number: u64, place: u64) -> u64 {
    number + 256 * place
}

/// Surveys a bundle by both.
pub fn surveyed(survey: impl Fn(&[u8]) -> u64, bundle: &[u8]) -> u64 {
    compared(
        &[],
        &[],
        [bundle],
        |_, _, [bundle]| survey(bundle),
        |_, _| coded(bundle::survey(bundle)),
    )
    .answer
}

/// How many bytes the three numbers of an entry take.
pub const NUMBERS: usize = 24;

/// Looks at a place by both: the entry's three numbers go to a buffer that holds `room` before.
pub fn looked_at(
    entry_at: impl Fn(&[u8], u64, &mut [u8]) -> u8,
    bundle: &[u8],
    place: u64,
    room: &[u8],
) -> buffers::Seen<u8> {
    compared(
        &[],
        room,
        [bundle],
        |_, numbers, [bundle]| entry_at(bundle, place, numbers),
        |_, numbers| put_numbers(bundle, place, numbers),
    )
}

/// What the reference puts of the entry at a place: 0, or why nothing.
fn put_numbers(bundle: &[u8], place: u64, numbers: &mut [u8]) -> u8 {
    let Ok(numbers) = <&mut [u8; NUMBERS]>::try_from(numbers) else {
        return ROOM;
    };
    match bundle::entry_at(bundle, place as usize) {
        Ok(entry) => {
            *numbers = numbers_of(&entry);
            0
        }
        Err(Fault::Short) => 1,
        Err(Fault::Large) => 2,
        Err(Fault::Past) => 3,
    }
}

/// An entry's numbers, big-endian: the lengths of header and body, and the next place.
fn numbers_of(entry: &Entry) -> [u8; NUMBERS] {
    let numbers = [entry.header.len(), entry.ciphertext.len(), entry.end];
    let bytes = numbers.map(|number| (number as u64).to_be_bytes());
    bytes.concat().try_into().unwrap()
}

/// Counts an entry's calls by both.
pub fn counted(calls_of: impl FnOnce(u64, u64) -> u64, header: u64, body: u64) -> u64 {
    let calls = calls_of(header, body);
    let reference = bundle::calls_of(header as usize, body as usize);
    assert_eq!(calls, reference, "answers differ");
    calls
}

/// Opens the entry at a place by both into a buffer that holds `room` before.
pub fn opened(
    open_entry: impl Fn(&mut [u8], &[u8], u64, &mut [u8]) -> u64,
    image: &[u8],
    bundle: &[u8],
    place: u64,
    room: &[u8],
) -> Seen {
    compared(
        image,
        room,
        [bundle],
        |image, body, [bundle]| open_entry(image, bundle, place, body),
        |image, body| {
            coded(on_image(image, |session| {
                bundle::open_entry(session, bundle, place, body)
            }))
        },
    )
}

/// Starts a bundle by both in a buffer.
pub fn started(
    start: impl Fn(&mut [u8], &[u8], &mut [u8]) -> u64,
    image: &[u8],
    label: &[u8],
    buffer: &[u8],
) -> Seen {
    compared(
        image,
        buffer,
        [label],
        |image, bundle, [label]| start(image, label, bundle),
        |image, bundle| {
            let answer = on_image(image, |session| bundle::start(session, label, bundle));
            coded(answer.map(|()| 0))
        },
    )
}

/// Adds an entry by both to the bundle in a buffer.
pub fn added(
    add: impl Fn(&mut [u8], &[u8], &[u8], &mut [u8]) -> u64,
    image: &[u8],
    header: &[u8],
    body: &[u8],
    buffer: &[u8],
) -> Seen {
    compared(
        image,
        buffer,
        [header, body],
        |image, bundle, [header, body]| add(image, header, body, bundle),
        |image, bundle| {
            let answer = on_image(image, |session| bundle::add(session, header, body, bundle));
            coded(answer.map(|()| 0))
        },
    )
}

/// An entry's bytes with anything for a ciphertext and tag.
pub fn entry(header: &[u8], body: usize) -> Vec<u8> {
    let header_length = (header.len() as u16).to_be_bytes();
    let body_length = (body as u32).to_be_bytes();
    [
        &header_length,
        &body_length[..],
        header,
        &vec![0x33; body + 16],
    ]
    .concat()
}

/// A bundle of the given entries, with its length right.
pub fn bundle_of(entries: &[Vec<u8>]) -> Vec<u8> {
    let rest = entries.concat();
    [&[1], &(rest.len() as u32).to_be_bytes()[..], &rest].concat()
}

/// States where a bundle ends.
pub fn state_end(bundle: &mut [u8], end: usize) {
    let rest = end as u32 - 5;
    bundle[1..5].copy_from_slice(&rest.to_be_bytes());
}

/// Any entries in a bundle that is whole or damaged.
pub fn any_bundle(random: &mut Random) -> Vec<u8> {
    let bundle = bundle_of(&any_entries(random));
    whole_or_damaged(random, bundle)
}

/// Entries with lengths around the limits of labels, and a wild length now and then.
fn any_entries(random: &mut Random) -> Vec<Vec<u8>> {
    let mut entries = Vec::new();
    for _ in 0..random.below(6) {
        let header = random.pick(&[0, 15, 16, 64, 65, 300]);
        let mut entry = entry(&random.bytes(header), random.pick(&[0, 0, 1, 200]));
        if random.below(8) == 0 {
            entry[random.below(6)] = random.pick(&[0, 1, 0x0F, 0x10, 0x11, 0xFF]);
        }
        entries.push(entry);
    }
    entries
}

/// The bundle as it is, cut or changed, or any bytes in its place. In half of these the stated
/// length is put right, so that it is not all that is wrong.
pub fn whole_or_damaged(random: &mut Random, bundle: Vec<u8>) -> Vec<u8> {
    let mut bundle = bundle;
    match random.below(7) {
        0 => bundle.truncate(random.below(bundle.len() + 1)),
        1 => damage(random, &mut bundle),
        2 => {
            let bit = random.below(8 * bundle.len().min(60));
            flip(&mut bundle, bit);
        }
        3 => bundle[random.below(5)] = random.pick(&[0, 1, 2, 0x80, 0xFF]),
        4 => bundle = string(random),
        _ => {}
    }
    let end = bundle.len();
    if end >= 5 && random.below(2) == 0 {
        state_end(&mut bundle, end);
    }
    bundle
}
