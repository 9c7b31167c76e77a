//! The library's bundles against the reference: answers, places, images and whole buffers.
//!
//! An answer carries a place times 256, so places here stay under 2^56.

use compare::bundles::{self, any_bundle, bundle_of, entry, refused, Seen};
use compare::random::Random;
use exports::probe::bundles::{add, open_entry, start, survey};
use reference::bundle;
use reference::spongewrap::Session;

/// The refusal's number in an answer, 0 if there is none.
fn number(answer: u64) -> u64 {
    answer % 256
}

/// Surveys a bundle by both.
fn surveyed(bundle: &[u8]) -> u64 {
    bundles::surveyed(survey, bundle)
}

/// Opens the entry at a place by both into a buffer that holds `room` before.
fn opened(image: &[u8], bundle: &[u8], place: u64, room: &[u8]) -> Seen {
    bundles::opened(open_entry, image, bundle, place, room)
}

/// Starts a bundle by both in a buffer.
fn started(image: &[u8], label: &[u8], buffer: &[u8]) -> Seen {
    bundles::started(start, image, label, buffer)
}

/// Adds an entry by both to the bundle in a buffer.
fn added(image: &[u8], header: &[u8], body: &[u8], buffer: &[u8]) -> Seen {
    bundles::added(add, image, header, body, buffer)
}

/// A bundle's session, fresh from open.
fn session(random: &mut Random) -> Session {
    Session::open(&random.bytes(32), 136, 16).unwrap()
}

/// A sealed bundle: the image it starts from, its entries' bytes, and their bodies.
struct Sealed {
    image: Vec<u8>,
    entries: Vec<Vec<u8>>,
    bodies: Vec<Vec<u8>>,
}

impl Sealed {
    /// A bundle of entry zero and `more` random entries, in a buffer with bytes to spare.
    fn new(random: &mut Random, more: usize) -> Self {
        let image = session(random).to_image().to_vec();
        let label_length = 16 + random.below(49);
        let now = started(&image, &random.bytes(label_length), &random.bytes(10_000));
        let mut sealed = Sealed {
            image,
            entries: vec![],
            bodies: vec![],
        };
        sealed.note(&now, 5, &[]);
        (0..more).fold(now, |now, _| sealed.add(random, now));
        sealed
    }

    /// Adds one random entry after what is there now.
    fn add(&mut self, random: &mut Random, now: Seen) -> Seen {
        let lengths = [0, 1, 20, 135, 136, 300];
        let (header_length, body_length) = (random.pick(&lengths), random.pick(&lengths));
        let (header, body) = (random.bytes(header_length), random.bytes(body_length));
        let place = self.whole().len();
        let next = added(&now.image, &header, &body, &now.lent);
        self.note(&next, place, &body);
        next
    }

    /// Keeps the entry that a call has written at a place, after which the bundle must be all the
    /// entries so far.
    fn note(&mut self, now: &Seen, place: usize, body: &[u8]) {
        assert_eq!(now.answer, 0);
        let end = 5 + u32::from_be_bytes(now.lent[1..5].try_into().unwrap()) as usize;
        self.entries.push(now.lent[place..end].to_vec());
        self.bodies.push(body.to_vec());
        assert!(now.lent[..end] == self.whole());
    }

    /// The bundle's bytes.
    fn whole(&self) -> Vec<u8> {
        bundle_of(&self.entries)
    }

    /// Opens entry after entry of any bundle, each where the last one ended. Answers how many
    /// opened, and the answer that ended the walk.
    fn walked(&self, bundle: &[u8]) -> (usize, u64) {
        let (mut image, mut place, mut count) = (self.image.clone(), 5, 0);
        loop {
            let seen = opened(&image, bundle, place, &[0x5A; 320]);
            if number(seen.answer) != 0 {
                return (count, seen.answer);
            }
            (image, place, count) = (seen.image, seen.answer / 256, count + 1);
        }
    }
}

#[test]
fn whole_bundles() {
    let mut random = Random::new(41);
    for more in (0..12).cycle().take(60) {
        let sealed = Sealed::new(&mut random, more);
        let bundle = sealed.whole();
        let count = sealed.entries.len();
        assert_eq!(surveyed(&bundle), 256 * count as u64);
        let end = bundle.len() as u64;
        assert_eq!(sealed.walked(&bundle), (count, refused(9, end)));
        let (mut image, mut place) = (sealed.image, 5);
        for body in sealed.bodies {
            let seen = opened(&image, &bundle, place, &random.bytes(body.len() + 3));
            assert!(seen.lent[..body.len()] == body);
            (image, place) = (seen.image, seen.answer / 256);
        }
    }
}

/// A bundle cut at every length, with its stated length left alone and put right.
#[test]
fn cut_bundles() {
    let mut random = Random::new(42);
    let sealed = Sealed::new(&mut random, 4);
    let whole = sealed.whole();
    for end in 0..whole.len() {
        let mut bundle = whole[..end].to_vec();
        let place = if end == 0 { 0 } else { 1 };
        assert_eq!(surveyed(&bundle), refused(9, place));
        assert!(sealed.walked(&bundle).0 < sealed.entries.len());
        if end >= 5 {
            bundle[1..5].copy_from_slice(&(end as u32 - 5).to_be_bytes());
            surveyed(&bundle);
        }
    }
}

/// Every single bit of a bundle changed: whatever survey says, not every entry opens, unless the
/// bit is in the first five bytes, which opening does not read.
#[test]
fn flipped_bundles() {
    let mut random = Random::new(43);
    let sealed = Sealed::new(&mut random, 3);
    let whole = sealed.whole();
    for bit in 0..8 * whole.len() {
        let mut bundle = whole.clone();
        bundle[bit / 8] ^= 1 << (bit % 8);
        surveyed(&bundle);
        let (count, _) = sealed.walked(&bundle);
        assert_eq!(count == sealed.entries.len(), bit < 40, "bit {bit}");
    }
}

/// Entries swapped, dropped, doubled, or taken from another bundle are refused where they stand.
#[test]
fn spliced_bundles() {
    let mut random = Random::new(44);
    for _ in 0..40 {
        let sealed = Sealed::new(&mut random, 5);
        let other = Sealed::new(&mut random, 5);
        let at = random.below(5);
        let mut splices = vec![sealed.entries.clone(); 4];
        splices[0].swap(at, at + 1);
        splices[1].remove(at);
        splices[2].insert(at, sealed.entries[at].clone());
        splices[3][at] = other.entries[at].clone();
        for (kind, entries) in splices.iter().enumerate() {
            surveyed(&bundle_of(entries));
            let opened = if kind == 2 { at + 1 } else { at };
            let place = bundle_of(&entries[..opened]).len() as u64;
            let ends = sealed.walked(&bundle_of(entries));
            assert_eq!(ends, (opened, refused(8, place)), "kind {kind} at {at}");
        }
    }
}

/// Two entries made one: a repeated header left out, so that a body stands under another header.
#[test]
fn merged_entries() {
    let mut random = Random::new(45);
    let image = session(&mut random).to_image();
    let buffer = started(&image, &[0x41; 16], &[0; 400]);
    let first = added(&buffer.image, b"one", &[1; 30], &buffer.lent);
    let second = added(&first.image, b"two", &[2; 30], &first.lent);
    let third = added(&second.image, b"one", &[3; 30], &second.lent);
    let places = [43, 98, 153, 208];
    for kept in [[0, 2, 1], [1, 0, 2], [0, 0, 2]] {
        let mut bundle = third.lent[..43].to_vec();
        for (slot, from) in kept.into_iter().enumerate() {
            let (lengths, sealed) = (places[slot], places[from]);
            bundle.extend(&third.lent[lengths..lengths + 9]);
            bundle.extend(&third.lent[sealed + 9..places[from + 1]]);
        }
        bundle[1..5].copy_from_slice(&203_u32.to_be_bytes());
        assert_eq!(surveyed(&bundle), 4 * 256);
        let zero = opened(&image, &bundle, 5, &[]);
        let mut state = (zero.image, zero.answer);
        while number(state.1) == 0 {
            let seen = opened(&state.0, &bundle, state.1 / 256, &[0; 30]);
            state = (seen.image, seen.answer);
        }
        assert_eq!(number(state.1), 8);
    }
}

/// Opening at every place of a bundle and past its end.
#[test]
fn every_place() {
    let mut random = Random::new(46);
    let sealed = Sealed::new(&mut random, 3);
    let bundle = sealed.whole();
    let end = bundle.len() as u64;
    for place in (0..end + 20).chain([1 << 16, 1 << 32, 1 << 40, (1 << 56) - 1]) {
        let seen = opened(&sealed.image, &bundle, place, &random.bytes(320));
        assert_eq!(number(seen.answer) == 0, place == 5);
        if place >= end {
            assert_eq!(seen.answer, refused(9, place));
        }
    }
    assert_eq!(opened(&sealed.image, &[], 0, &[]).answer, refused(9, 0));
}

/// Bundles of random shape: versions, stated lengths and entry lengths, sound and wild.
#[test]
fn random_bundles() {
    let mut random = Random::new(47);
    let image = session(&mut random).to_image();
    for _ in 0..3_000 {
        let bundle = any_bundle(&mut random);
        surveyed(&bundle);
        let place = random.pick(&[5, 43, 0, 1, 4]);
        opened(&image, &bundle, place, &random.bytes(200));
    }
}

/// Entries whose stated lengths are at and past every limit, with and without their bytes.
#[test]
fn entry_lengths_at_the_limits() {
    let image = session(&mut Random::new(48)).to_image();
    let zero = entry(&[0x41; 16], 0);
    for (header, body) in [
        (65_535, 0),
        (0, 1_048_576),
        (65_535, 1_048_576),
        (0, 1_048_577),
    ] {
        let entry = entry(&vec![0x42; header], body);
        let bundle = bundle_of(&[zero.clone(), entry.clone()]);
        let well = body <= 1_048_576;
        assert_eq!(surveyed(&bundle), if well { 512 } else { refused(9, 43) });
        let seen = opened(&image, &bundle, 43, &vec![0x5A; body]);
        assert_eq!(seen.answer, refused(if well { 8 } else { 9 }, 43));
        let short = entry[..entry.len() - 1].to_vec();
        let bundle = bundle_of(&[zero.clone(), short]);
        assert_eq!(surveyed(&bundle), refused(9, 43));
        assert_eq!(opened(&image, &bundle, 43, &[]).answer, refused(9, 43));
    }
    for body in [1 << 31, u32::MAX, u32::MAX - 21, u32::MAX - 15] {
        let mut wild = entry(&[], 0);
        wild[2..6].copy_from_slice(&body.to_be_bytes());
        let bundle = bundle_of(&[zero.clone(), wild]);
        assert_eq!(surveyed(&bundle), refused(9, 43));
        assert_eq!(opened(&image, &bundle, 43, &[]).answer, refused(9, 43));
    }
}

/// Surveys with the most entries and one more, and of the most bytes and one more.
#[test]
fn survey_at_its_limits() {
    let empty = entry(&[], 0);
    let mut entries = vec![entry(&[0x41; 16], 0)];
    entries.resize(65_535, empty.clone());
    assert_eq!(surveyed(&bundle_of(&entries)), 65_535 * 256);
    let place = bundle_of(&entries).len() as u64;
    entries.push(empty);
    assert_eq!(surveyed(&bundle_of(&entries)), refused(7, place));
    entries[65_535] = vec![0];
    assert_eq!(surveyed(&bundle_of(&entries)), refused(7, place));
    let mut entries = vec![entry(&[0x41; 16], 0)];
    entries.resize(16, entry(&[], 1_048_576));
    let left = 16_777_216 - bundle_of(&entries).len() - 22;
    entries.push(entry(&[], left));
    assert_eq!(surveyed(&bundle_of(&entries)), 17 * 256);
    entries[16] = entry(&[], left + 1);
    assert_eq!(surveyed(&bundle_of(&entries)), refused(9, 0));
}

#[test]
fn labels_of_every_length() {
    let image = session(&mut Random::new(49)).to_image();
    for length in 0..=70 {
        let label = vec![0x41; length];
        let seen = started(&image, &label, &[0x5A; 100]);
        let well = (16..=64).contains(&length);
        assert_eq!(seen.answer, if well { 0 } else { refused(11, 0) });
        let needed = 5 + 6 + length + 16;
        for room in [0, 4, 5, needed - 1, needed] {
            let seen = started(&image, &label, &vec![0x5A; room]);
            let fits = if room < needed { refused(6, 0) } else { 0 };
            assert_eq!(seen.answer, if well { fits } else { refused(11, 0) });
        }
        let bundle = bundle_of(&[entry(&label, 0)]);
        assert_eq!(surveyed(&bundle), if well { 256 } else { refused(11, 5) });
        assert_eq!(surveyed(&bundle_of(&[entry(&label, 1)])), refused(11, 5));
    }
}

/// Adding at the end of the buffer, and at byte 16,777,216.
#[test]
fn adding_up_to_the_end() {
    let mut random = Random::new(50);
    let image = session(&mut random).to_image();
    for (length, limit) in [
        (300, 300),
        (16_777_216, 16_777_216),
        (16_777_300, 16_777_216),
    ] {
        let mut buffer = random.bytes(length);
        buffer[0] = 1;
        for spare in [0, 1, 21, 22, 23, 71, 72, 73] {
            let stated = (limit - 5 - spare) as u32;
            buffer[1..5].copy_from_slice(&stated.to_be_bytes());
            let seen = added(&image, &[0x42; 20], &[0x43; 30], &buffer);
            assert_eq!(seen.answer, if spare < 72 { refused(6, 0) } else { 0 });
        }
    }
}

/// Buffers whose first bytes are not a bundle's, and lengths past their end.
#[test]
fn adding_to_what_is_no_bundle() {
    let image = session(&mut Random::new(51)).to_image();
    for length in 0..=5 {
        let answer = if length < 5 {
            refused(9, 0)
        } else {
            refused(10, 0)
        };
        assert_eq!(added(&image, b"", b"", &vec![2; length]).answer, answer);
    }
    for version in [0, 2, 255] {
        let mut buffer = bundle_of(&[entry(&[0x41; 16], 0), vec![0; 100]]);
        buffer[0] = version;
        assert_eq!(added(&image, b"", b"", &buffer).answer, refused(10, 0));
    }
    for past in [1, 2, 1_000, u32::MAX - 200] {
        let mut buffer = vec![1; 200];
        buffer[1..5].copy_from_slice(&(195 + past).to_be_bytes());
        assert_eq!(added(&image, b"", b"", &buffer).answer, refused(9, 1));
    }
}

/// Sessions that a bundle does not take, and images of other lengths.
#[test]
fn sessions_of_other_settings() {
    let mut random = Random::new(52);
    let (sound, bundle) = (session(&mut random), bundle_of(&[entry(&[0x41; 16], 0)]));
    let buffer = [&bundle[..], &[0x5A; 100]].concat();
    let settings = [
        (137, 16, 0, 1, 1),
        (168, 16, 0, 1, 1),
        (168, 17, 65_535, 1, 1),
        (136, 15, 0, 1, 3),
        (136, 17, 65_535, 1, 3),
        (136, 256, 0, 1, 3),
        (136, 16, 65_535, 1, 7),
        (136, 16, 0, 540_991_428, 7),
        (136, 16, 65_534, 540_991_427, 0),
    ];
    for (rate, tag, pairs, calls, refusal) in settings {
        let wild = Session {
            rate,
            tag,
            pairs,
            calls,
            ..sound.clone()
        };
        let image = wild.to_image();
        let at_9 = if refusal == 0 { 9 } else { refusal };
        assert_eq!(opened(&image, &bundle, 99, &[]).answer, refused(at_9, 99));
        assert_eq!(started(&image, &[0x41; 16], &buffer).answer, refusal);
        assert_eq!(added(&image, b"a", b"b", &buffer).answer, refusal);
    }
    for length in [0, 215, 217] {
        let image = random.bytes(length);
        assert_eq!(opened(&image, &bundle, 99, &[]).answer, 6);
        assert_eq!(started(&image, &[], &[]).answer, 6);
        assert_eq!(added(&image, &vec![0; 65_536], b"", &[]).answer, 6);
    }
}

/// When more than one thing is wrong with an opening, its order picks the number.
#[test]
fn openings_refuse_in_their_order() {
    let mut random = Random::new(53);
    let (mut writer, mut whole) = (session(&mut random), vec![0; 200]);
    bundle::start(&mut writer, &[0x41; 20], &mut whole).unwrap();
    let sound = writer.clone();
    bundle::add(&mut writer, b"header", &[1; 50], &mut whole).unwrap();
    let (place, end) = (47, 47 + 6 + 6 + 50 + 16);
    for wrong in 0..64 {
        let is_wrong = |fault: usize| wrong >> fault & 1 == 1;
        let session = Session {
            rate: if is_wrong(0) { 168 } else { 136 },
            tag: if is_wrong(1) { 17 } else { 16 },
            calls: if is_wrong(2) { u64::MAX } else { 2 },
            ..sound.clone()
        };
        let mut bundle = whole[..end - usize::from(is_wrong(3))].to_vec();
        bundle[end - 10] ^= u8::from(is_wrong(5));
        let room = vec![0x5A; 50 - usize::from(is_wrong(4))];
        let numbers = [1, 3, 7, 9, 6, 8];
        let first = (0..6)
            .find(|fault| is_wrong(*fault))
            .map(|fault| numbers[fault]);
        let expected = first.map_or(256 * end as u64, |number| refused(number, place));
        let seen = opened(&session.to_image(), &bundle, place, &room);
        assert_eq!(seen.answer, expected);
    }
}

/// The same for an add.
#[test]
fn adds_refuse_in_their_order() {
    let mut random = Random::new(54);
    let (sound, long) = (session(&mut random), random.bytes(1_048_577));
    for wrong in 0..512 {
        let is_wrong = |fault: usize| wrong >> fault & 1 == 1;
        let session = Session {
            rate: if is_wrong(0) { 168 } else { 136 },
            tag: if is_wrong(1) { 17 } else { 16 },
            pairs: if is_wrong(2) { 65_535 } else { 0 },
            ..sound.clone()
        };
        let header = &long[..if is_wrong(3) { 65_536 } else { 20 }];
        let body = &long[..if is_wrong(4) { 1_048_577 } else { 30 }];
        let mut buffer = bundle_of(&[entry(&[0x41; 16], 0)]);
        buffer.extend(vec![0x5A; if is_wrong(8) { 71 } else { 72 }]);
        buffer[0] += u8::from(is_wrong(6));
        buffer[1] += u8::from(is_wrong(7));
        buffer.truncate(if is_wrong(5) { 4 } else { usize::MAX });
        let answers = [1, 3, 7, 4, 5, 9, 10, refused(9, 1), 6];
        let first = (0..9).find(|fault| is_wrong(*fault));
        let seen = added(&session.to_image(), header, body, &buffer);
        assert_eq!(seen.answer, first.map_or(0, |fault| answers[fault]));
    }
}

/// An empty slice of Rust's points to nothing; neither side may look there.
#[test]
fn empty_slices() {
    let mut image = session(&mut Random::new(55)).to_image();
    assert_eq!(survey(&[]), refused(9, 0));
    assert_eq!(open_entry(&mut image, &[], 0, &mut []), refused(9, 0));
    assert_eq!(start(&mut image, &[], &mut []), refused(11, 0));
    assert_eq!(start(&mut image, &[0x41; 16], &mut []), refused(6, 0));
    assert_eq!(add(&mut image, &[], &[], &mut []), refused(9, 0));
}
