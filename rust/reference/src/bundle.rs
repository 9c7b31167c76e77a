//! Bundles of version 1: the pairs of one session in order, each with its lengths before it.
//!
//! Every function takes bytes as they come. A refusal carries the place that document 01 names.

use crate::duplex::blocks;
use crate::spongewrap::{self, check_lengths, Refusal, Session};
use std::ops::RangeInclusive;

/// The bundle is malformed.
pub const MALFORMED: Refusal = 9;
/// The version is not 1.
pub const VERSION: Refusal = 10;
/// There is no entry zero, or it is not one.
pub const LABEL: Refusal = 11;

/// The version that byte 0 says.
const THIS_VERSION: u8 = 1;

/// The bytes before entry zero: the version and the stated length.
pub const START: usize = 5;

/// The bytes before an entry's header: its two lengths.
const LENGTHS: usize = 6;

/// The rate of a bundle's session.
const BUNDLE_RATE: u16 = 136;

/// The tag length of a bundle's session.
const BUNDLE_TAG: u16 = 16;

/// The lengths that a label may have.
const LABELS: RangeInclusive<usize> = 16..=64;

/// The longest bundle.
const MOST_BUNDLE: usize = 16_777_216;

/// A refusal's number and the place that it carries.
#[derive(Clone, Copy, Debug, PartialEq)]
pub struct Refused {
    pub number: Refusal,
    pub place: u64,
}

/// A number alone is refused at place 0.
impl From<Refusal> for Refused {
    fn from(number: Refusal) -> Self {
        Refused { number, place: 0 }
    }
}

/// Refuses by that number at that place if the fault is there.
fn refuse_if(fault: bool, number: Refusal, place: usize) -> Result<(), Refused> {
    let place = place as u64;
    spongewrap::refuse_if(fault, number).map_err(|number| Refused { number, place })
}

/// One entry's parts, and the place after it.
pub struct Entry<'a> {
    pub header: &'a [u8],
    pub ciphertext: &'a [u8],
    pub tag: &'a [u8],
    pub end: usize,
}

/// Why there is no entry at a place.
#[derive(Clone, Copy, Debug, PartialEq)]
pub enum Fault {
    /// Under 6 bytes are left.
    Short,
    /// The body length is over the limit.
    Large,
    /// There are not enough bytes for the entry.
    Past,
}

/// The entry whose first byte is at a place, if it is well formed and there to its end.
pub fn entry_at(bundle: &[u8], place: usize) -> Result<Entry<'_>, Fault> {
    let left = bundle.get(place..).unwrap_or(&[]);
    let (lengths, rest) = left.split_at_checked(LENGTHS).ok_or(Fault::Short)?;
    let header_length = number(&lengths[..2]);
    let body_length = number(&lengths[2..]);
    if body_length > spongewrap::MOST_BODY {
        return Err(Fault::Large);
    }
    let (header, rest) = rest.split_at_checked(header_length).ok_or(Fault::Past)?;
    let (ciphertext, rest) = rest.split_at_checked(body_length).ok_or(Fault::Past)?;
    let tag = rest.get(..BUNDLE_TAG.into()).ok_or(Fault::Past)?;
    Ok(Entry {
        header,
        ciphertext,
        tag,
        end: place + LENGTHS + header_length + body_length + tag.len(),
    })
}

/// The permutation calls of an entry whose header and body have those lengths, without the key's.
pub fn calls_of(header: usize, body: usize) -> u64 {
    let rate = BUNDLE_RATE.into();
    blocks(header, rate) + blocks(body, rate) + blocks(BUNDLE_TAG.into(), rate) - 1
}

/// The number that bytes spell, big-endian.
fn number(bytes: &[u8]) -> usize {
    bytes
        .iter()
        .fold(0, |sum, byte| sum << 8 | usize::from(*byte))
}

/// How many bytes a bundle says it has, start and all; it must have its first five.
fn stated_end(bundle: &[u8]) -> usize {
    START + number(&bundle[1..START])
}

/// Surveys a whole bundle without a key and answers its number of entries.
pub fn survey(bundle: &[u8]) -> Result<u64, Refused> {
    refuse_if(
        bundle.is_empty() || bundle.len() > MOST_BUNDLE,
        MALFORMED,
        0,
    )?;
    refuse_if(bundle[0] != THIS_VERSION, VERSION, 0)?;
    refuse_if(bundle.len() < START, MALFORMED, 1)?;
    refuse_if(stated_end(bundle) != bundle.len(), MALFORMED, 1)?;
    let mut place = START;
    let mut entries = 0;
    let mut labelled = false;
    while place < bundle.len() {
        refuse_if(entries == spongewrap::MOST_PAIRS, spongewrap::SPENT, place)?;
        let malformed = Refused {
            number: MALFORMED,
            place: place as u64,
        };
        let entry = entry_at(bundle, place).map_err(|_| malformed)?;
        labelled |= entries == 0 && is_label(entry.header) && entry.ciphertext.is_empty();
        entries += 1;
        place = entry.end;
    }
    refuse_if(!labelled, LABEL, START)?;
    Ok(entries.into())
}

/// Whether a header can be entry zero's.
fn is_label(header: &[u8]) -> bool {
    LABELS.contains(&header.len())
}

/// What a bundle asks of its session: 1, 3, 7.
fn check_session(session: &Session) -> Result<(), Refusal> {
    spongewrap::refuse_if(session.rate != BUNDLE_RATE, spongewrap::RATE)?;
    spongewrap::refuse_if(session.tag != BUNDLE_TAG, spongewrap::TAG_LENGTH)?;
    session.check()
}

/// Opens the entry at a place into the first bytes of `body` and answers the next place:
/// 1, 3, 7, 9, 6, 8, all at that place.
pub fn open_entry(
    session: &mut Session,
    bundle: &[u8],
    place: u64,
    body: &mut [u8],
) -> Result<u64, Refused> {
    let here = |number| Refused { number, place };
    check_session(session).map_err(here)?;
    let at = usize::try_from(place).unwrap_or(usize::MAX);
    let entry = entry_at(bundle, at).map_err(|_| here(MALFORMED))?;
    session
        .unwrap(entry.header, entry.ciphertext, entry.tag, body)
        .map_err(here)?;
    Ok(entry.end as u64)
}

/// Starts a bundle with entry zero: 1, 3, 7, 11, 6.
pub fn start(session: &mut Session, label: &[u8], bundle: &mut [u8]) -> Result<(), Refused> {
    check_session(session)?;
    refuse_if(!is_label(label), LABEL, 0)?;
    let end = START + entry_length(label, &[]);
    refuse_if(end > bundle.len(), spongewrap::ROOM, 0)?;
    bundle[0] = THIS_VERSION;
    write_entry(session, label, &[], bundle, START)
}

/// Adds an entry at the stated end of a bundle: 1, 3, 7, 4, 5, then the bundle's own first bytes,
/// then 6.
pub fn add(
    session: &mut Session,
    header: &[u8],
    body: &[u8],
    bundle: &mut [u8],
) -> Result<(), Refused> {
    check_session(session)?;
    check_lengths(header, body)?;
    refuse_if(bundle.len() < START, MALFORMED, 0)?;
    refuse_if(bundle[0] != THIS_VERSION, VERSION, 0)?;
    let place = stated_end(bundle);
    refuse_if(place > bundle.len(), MALFORMED, 1)?;
    let end = place + entry_length(header, body);
    refuse_if(end > bundle.len().min(MOST_BUNDLE), spongewrap::ROOM, 0)?;
    write_entry(session, header, body, bundle, place)
}

/// How many bytes an entry takes.
fn entry_length(header: &[u8], body: &[u8]) -> usize {
    LENGTHS + header.len() + body.len() + usize::from(BUNDLE_TAG)
}

/// Writes an entry at a place that has room for it, and the stated length that ends after it.
fn write_entry(
    session: &mut Session,
    header: &[u8],
    body: &[u8],
    bundle: &mut [u8],
    place: usize,
) -> Result<(), Refused> {
    let end = place + entry_length(header, body);
    let (lengths, rest) = bundle[place..end].split_at_mut(LENGTHS);
    let (to, sealed) = rest.split_at_mut(header.len());
    session.wrap(header, body, sealed)?;
    to.copy_from_slice(header);
    lengths[..2].copy_from_slice(&(header.len() as u16).to_be_bytes());
    lengths[2..].copy_from_slice(&(body.len() as u32).to_be_bytes());
    let stated = (end - START) as u32;
    bundle[1..START].copy_from_slice(&stated.to_be_bytes());
    Ok(())
}
