//! Calls of libprobe.a on bundles.

use crate::made_up::{around, body, header, once_in, room, wilder};
use crate::Trial;
use compare::bundles::{
    self, added, bundle_of, counted, entry, looked_at, opened, started, state_end, surveyed,
    whole_or_damaged, NUMBERS,
};
use compare::random::Random;
use compare::sessions::{damage, flip};
use exports::probe::bundles::{add, calls_of, entry_at, open_entry, start, survey};
use reference::bundle;
use reference::spongewrap::{Session, MOST_BODY};

/// Each export.
pub const TRIALS: [Trial; 6] = [
    ("probe_survey", try_survey),
    ("probe_entry_at", try_entry_at),
    ("probe_calls_of", try_calls_of),
    ("probe_open_entry", try_open_entry),
    ("probe_start", try_start),
    ("probe_add", try_add),
];

/// The longest bundle and the most entries, as document 01 has them.
const MOST_BUNDLE: usize = 16_777_216;
const MOST_ENTRIES: usize = 65_535;

/// The bytes of entry zero and what stands before it, with the shortest label.
const SHORTEST: usize = 5 + 6 + 16 + 16;

/// A bundle in a buffer with bytes to spare, the session that opens its last entry, and the place
/// of that entry and the one after it.
struct Sealed {
    buffer: Vec<u8>,
    reader: Session,
    writer: Session,
    last: usize,
    end: usize,
}

impl Sealed {
    /// A bundle of a few random entries, by the reference.
    fn new(random: &mut Random) -> Self {
        let mut writer = Session::open(&random.bytes(32), 136, 16).unwrap();
        let (reader, mut buffer) = (writer.clone(), random.bytes(4_000));
        let label_length = 16 + random.below(49);
        bundle::start(&mut writer, &random.bytes(label_length), &mut buffer).unwrap();
        let mut sealed = Sealed {
            end: stated_end(&buffer),
            last: 5,
            buffer,
            reader,
            writer,
        };
        (0..random.below(4)).for_each(|_| sealed.add(random));
        sealed
    }

    /// Adds a random entry, for which there is room.
    fn add(&mut self, random: &mut Random) {
        let (header, body) = (random.below(300), random.below(600));
        let (header, body) = (random.bytes(header), random.bytes(body));
        self.reader = self.writer.clone();
        bundle::add(&mut self.writer, &header, &body, &mut self.buffer).unwrap();
        (self.last, self.end) = (self.end, stated_end(&self.buffer));
    }

    /// The bundle alone.
    fn whole(&self) -> Vec<u8> {
        self.buffer[..self.end].to_vec()
    }
}

/// Where a bundle says that it ends.
fn stated_end(buffer: &[u8]) -> usize {
    5 + u32::from_be_bytes(buffer[1..5].try_into().unwrap()) as usize
}

/// Bundles that are sealed or put together from any entries, whole or damaged.
fn any_bundle(random: &mut Random) -> Vec<u8> {
    if once_in(random, 3) {
        return bundles::any_bundle(random);
    }
    let bundle = Sealed::new(random).whole();
    whole_or_damaged(random, bundle)
}

/// A session's image, with a wild number or damage now and then.
fn image(random: &mut Random, session: &Session) -> Vec<u8> {
    let mut session = session.clone();
    wilder(random, &mut session);
    let mut image = session.to_image().to_vec();
    if once_in(random, 12) {
        damage(random, &mut image);
    }
    image
}

/// A bundle at one of the limits that short ones never meet, or next to it.
fn long_bundle(random: &mut Random) -> Vec<u8> {
    let mut entries = vec![entry(&[0x41; 16], 0)];
    match random.below(8) {
        0 => entries.resize(16, entry(&[], MOST_BODY)),
        1 | 2 => entries.resize(around(random, MOST_ENTRIES), entry(&[], 0)),
        _ => entries.push(entry(&[], around(random, MOST_BODY))),
    }
    if entries.len() == 16 {
        let left = MOST_BUNDLE - 22 - bundle_of(&entries).len();
        entries.push(entry(&[], around(random, left)));
    }
    bundle_of(&entries)
}

fn try_survey(random: &mut Random) {
    let bundle = match once_in(random, 300) {
        true => long_bundle(random),
        false => any_bundle(random),
    };
    surveyed(survey, &bundle);
}

fn try_entry_at(random: &mut Random) {
    let sealed = Sealed::new(random);
    let (mut bundle, mut place) = (sealed.whole(), sealed.last as u64);
    match random.below(6) {
        0 => (bundle, place) = (any_bundle(random), 5),
        1 => damage(random, &mut bundle),
        2 => place = random.below(bundle.len() + 8) as u64,
        3 => place = random.word() >> random.below(64),
        _ => {}
    }
    let room = match once_in(random, 8) {
        true => room(random, NUMBERS),
        false => random.bytes(NUMBERS),
    };
    looked_at(entry_at, &bundle, place, &room);
}

fn try_calls_of(random: &mut Random) {
    let mut length = || random.word() >> random.below(64);
    let (header, body) = (length(), length());
    counted(calls_of, header, body);
}

fn try_open_entry(random: &mut Random) {
    let sealed = Sealed::new(random);
    let (mut bundle, mut place) = (sealed.whole(), sealed.last as u64);
    match random.below(6) {
        0 => bundle = any_bundle(random),
        1 => damage(random, &mut bundle),
        // Answers carry a place times 256, so places stay under 2^56.
        2 => place = random.word() >> (8 + random.below(56)),
        _ => {}
    }
    let (image, room) = (image(random, &sealed.reader), room(random, 600));
    opened(open_entry, &image, &bundle, place, &room);
}

fn try_start(random: &mut Random) {
    let sealed = Sealed::new(random);
    let limit = random.pick(&[16, 40, 64]);
    let label_length = around(random, limit);
    let image = image(random, &sealed.reader);
    let room = room(random, SHORTEST - 16 + label_length);
    started(start, &image, &random.bytes(label_length), &room);
}

fn try_add(random: &mut Random) {
    let sealed = Sealed::new(random);
    let (header, body) = (header(random), body(random));
    let needed = 22 + header.len() + body.len();
    let buffer = match once_in(random, 1_000) {
        true => long_buffer(random, needed),
        false => any_buffer(random, &sealed, needed),
    };
    added(add, &image(random, &sealed.writer), &header, &body, &buffer);
}

/// A sound bundle with about as much room as is needed, changed now and then.
fn any_buffer(random: &mut Random, sealed: &Sealed, needed: usize) -> Vec<u8> {
    let mut buffer = [sealed.whole(), room(random, needed)].concat();
    match random.below(12) {
        0 => flip(&mut buffer, random.below(40)),
        1 => buffer.truncate(random.below(8)),
        _ => {}
    }
    buffer
}

/// A buffer that has room past the longest bundle, or just not, for an entry that ends there.
fn long_buffer(random: &mut Random, needed: usize) -> Vec<u8> {
    let mut buffer = vec![0x5A; MOST_BUNDLE - 1 + random.below(3)];
    buffer[0] = 1;
    let end = around(random, MOST_BUNDLE - needed);
    state_end(&mut buffer, end);
    buffer
}
