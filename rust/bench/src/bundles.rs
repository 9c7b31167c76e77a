//! Rows of bundles: a survey shared out by entries, and an entry added to a small and to a large
//! bundle, which should cost the same.

use crate::messages::{row, Call};
use crate::sessions::{opened, HEADER};
use crate::table::{Maker, Row};
use exports::probe::bundles::{add, start, survey};

/// The most bytes that a bundle has.
const MOST: usize = 1 << 24;

/// The most entries that a bundle has.
const ENTRIES: usize = 65_535;

/// The bytes of an entry beside its header and body: lengths and tag.
const BESIDE: usize = 6 + 16;

/// The body of an entry that is added.
const BODY: usize = 64;

/// The label of every bundle.
const LABEL: [u8; 16] = [0x44; 16];

/// The end of entry zero.
const ZERO_END: usize = 5 + BESIDE + LABEL.len();

/// All rows of bundles.
pub fn rows() -> Vec<Row> {
    let small = ZERO_END + BESIDE + HEADER.len() + BODY;
    vec![
        surveyed(),
        added("add to a small bundle", small),
        added("add to a bundle of 16 MiB", MOST),
    ]
}

/// The survey of as many entries as there may be, in as many bytes; one call here is one entry.
fn surveyed() -> Row {
    let bundle = many_entries();
    let run = move || assert_eq!(survey(&bundle), 256 * ENTRIES as u64);
    Row {
        job: "survey, each entry".to_string(),
        maker: Maker::Library,
        note: " (65,535 in 16 MiB; to be at most 1,000 ns)",
        calls: ENTRIES as u64,
        blocks: 0,
        bytes: 0,
        run: Some(Box::new(run)),
    }
}

/// A bundle of entry zero and small entries; a survey asks nothing of what is sealed in them.
fn many_entries() -> Vec<u8> {
    let body = (MOST - ZERO_END) / (ENTRIES - 1) - BESIDE;
    let mut entry = vec![0; 6 + body + 16];
    entry[2..6].copy_from_slice(&(body as u32).to_be_bytes());
    let mut bundle = vec![0; ZERO_END];
    assert_eq!(start(&mut opened(136), &LABEL, &mut bundle), 0);
    bundle.extend(entry.repeat(ENTRIES - 1));
    let rest = bundle.len() - 5;
    state_rest(&mut bundle, rest);
    bundle
}

/// Writes the stated length of all that follows it.
fn state_rest(bundle: &mut [u8], rest: usize) {
    bundle[1..5].copy_from_slice(&(rest as u32).to_be_bytes());
}

/// Adds an entry that just fits the bytes of a bundle; each call starts from the same session and
/// the same stated length.
fn added(name: &str, bytes: usize) -> Row {
    let (session, mut bundle) = (opened(136), vec![0; bytes]);
    let rest = bytes - 5 - BESIDE - HEADER.len() - BODY;
    bundle[0] = 1;
    let call: Call = Box::new(move |body| {
        let mut image = session;
        state_rest(&mut bundle, rest);
        assert_eq!(add(&mut image, &HEADER, body, &mut bundle), 0);
    });
    row(name, Maker::Library, BODY, 2, Some(call))
}
