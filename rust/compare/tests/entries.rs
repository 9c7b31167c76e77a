//! The library's look at single entries against the reference: what stands at a place, and how many
//! calls it takes.

use compare::bundles::{any_bundle, bundle_of, counted, entry, looked_at, NUMBERS};
use compare::random::Random;
use exports::probe::bundles::{calls_of, entry_at};

/// The answers where no entry is whole.
const SHORT: Looked = Err(1);
const LARGE: Looked = Err(2);
const PAST: Looked = Err(3);

/// The lengths of header and body and the next place, or why there is no entry.
type Looked = Result<[u64; 3], u8>;

/// Looks at a place by both; where no entry is whole, the buffer must stand.
fn look(bundle: &[u8], place: u64) -> Looked {
    let room = [0x5A; NUMBERS];
    let seen = looked_at(entry_at, bundle, place, &room);
    if seen.answer != 0 {
        assert_eq!(seen.lent, room);
        return Err(seen.answer);
    }
    let number = |at: usize| u64::from_be_bytes(seen.lent[at..at + 8].try_into().unwrap());
    Ok([number(0), number(8), number(16)])
}

#[test]
fn whole_entries() {
    let mut random = Random::new(81);
    let lengths = [0, 1, 6, 22, 134, 135, 136, 255, 256, 257, 65_535];
    let mut entries = vec![entry(&[0x41; 16], 0)];
    for header in lengths {
        for body in lengths.into_iter().chain([65_536, 1_048_576]) {
            let place = bundle_of(&entries).len() as u64;
            entries.push(entry(&random.bytes(header), body));
            let bundle = bundle_of(&entries);
            let told = [header as u64, body as u64, bundle.len() as u64];
            assert_eq!(look(&bundle, place), Ok(told));
            // The next one stands behind this one or in its place.
            entries.truncate(1 + random.below(2));
        }
    }
}

/// Every place of a bundle and past its end.
#[test]
fn every_place() {
    let bundle = bundle_of(&[entry(&[0x41; 16], 0), entry(b"name", 136), entry(b"", 0)]);
    let end = bundle.len() as u64;
    assert_eq!(look(&bundle, 5), Ok([16, 0, 43]));
    assert_eq!(look(&bundle, 43), Ok([4, 136, 205]));
    assert_eq!(look(&bundle, 205), Ok([0, 0, 227]));
    let far = [1 << 16, 1 << 32, 1 << 56, u64::MAX - 5, u64::MAX];
    for place in (0..end + 20).chain(far) {
        let looked = look(&bundle, place);
        assert_eq!(looked == SHORT, place > end - 6, "place {place}");
    }
}

#[test]
fn entries_cut_at_every_length() {
    let whole = entry(b"name", 300);
    for length in 0..=whole.len() {
        let looked = look(&whole[..length], 0);
        let cut = if length < 6 { SHORT } else { PAST };
        let there = length == whole.len();
        assert_eq!(looked, if there { Ok([4, 300, 326]) } else { cut });
    }
}

/// A body length over the limit counts before the bytes that are not there.
#[test]
fn lengths_at_the_limits() {
    for (body, looked) in [
        (0, PAST),
        (1_048_576, PAST),
        (1_048_577, LARGE),
        (0x0100_0000, LARGE),
        (u32::MAX, LARGE),
    ] {
        let lengths = [&[0xFF; 2], &body.to_be_bytes()[..]].concat();
        assert_eq!(look(&lengths, 0), looked, "body of {body}");
        assert_eq!(look(&lengths[..5], 0), SHORT);
    }
    let largest = entry(&[0x42; 65_535], 1_048_576);
    assert_eq!(look(&largest, 0), Ok([65_535, 1_048_576, 1_114_133]));
    assert_eq!(look(&largest[..1_114_132], 0), PAST);
    let larger = entry(&[0x42; 65_535], 1_048_577);
    assert_eq!(look(&larger, 0), LARGE);
}

/// Damaged bundles, at places where an entry may stand and at any others.
#[test]
fn damaged_bundles() {
    let mut random = Random::new(82);
    for _ in 0..3_000 {
        let bundle = any_bundle(&mut random);
        let near = [0, 1, 5, 27, 43, random.below(bundle.len() + 8) as u64];
        for place in near {
            if let Ok([_, _, next]) = look(&bundle, place) {
                assert!(place < next && next <= bundle.len() as u64);
            }
        }
    }
}

#[test]
fn buffers_of_other_lengths() {
    let bundle = bundle_of(&[entry(&[0x41; 16], 0)]);
    for length in [0, 8, 16, 23, 25, 48] {
        for place in [5, 43] {
            let seen = looked_at(entry_at, &bundle, place, &vec![0x5A; length]);
            assert_eq!(seen.answer, 6);
        }
    }
}

#[test]
fn calls_of_every_short_length() {
    for length in 0..=2_000_u64 {
        let blocks = length.div_ceil(135).max(1);
        assert_eq!(counted(calls_of, length, 0), blocks + 1);
        assert_eq!(counted(calls_of, 0, length), blocks + 1);
    }
}

/// Lengths that no entry has are counted all the same.
#[test]
fn calls_of_long_lengths() {
    let limits = [1, 135, 65_535, 1_048_576, 1 << 32, 1 << 63, u64::MAX - 136];
    let near = limits.map(|limit| [limit - 1, limit, limit + 1, limit + 136]);
    for header in near.into_iter().flatten() {
        for body in near.into_iter().flatten() {
            assert!(counted(calls_of, header, body) >= 2);
        }
    }
    assert_eq!(calls_of(16, 0), 2);
    assert_eq!(calls_of(4, 136), 3);
    assert_eq!(calls_of(65_535, 1_048_576), 486 + 7_768);
}

/// An empty slice of Rust's points to nothing; neither side may look there.
#[test]
fn empty_slices() {
    assert_eq!(entry_at(&[], 0, &mut [0x5A; NUMBERS]), 1);
    assert_eq!(entry_at(&[], u64::MAX, &mut []), 6);
}
