//! Sessions: SpongeWrap of "Duplexing the sponge", with the limits and refusal numbers of
//! document 01.

use crate::duplex::{is_rate, pieces, Duplex};
use crate::keccak::Lanes;
use std::ops::RangeInclusive;

/// The number of a refusal.
pub type Refusal = u8;

/// The rate is neither 136 nor 168.
pub const RATE: Refusal = 1;
/// The key is too short or too long.
pub const KEY: Refusal = 2;
/// The session's tag length is too small or too large.
pub const TAG_LENGTH: Refusal = 3;
/// The header is too long.
pub const HEADER: Refusal = 4;
/// The body is too long.
pub const BODY: Refusal = 5;
/// A lent output is too short, or an image has another length.
pub const ROOM: Refusal = 6;
/// The session has had all its pairs or calls.
pub const SPENT: Refusal = 7;
/// The tag is another one.
pub const TAG: Refusal = 8;

/// The lengths that keys and tags may have.
pub const KEYS_AND_TAGS: RangeInclusive<usize> = 16..=256;

/// The longest header.
pub const MOST_HEADER: usize = 65_535;
/// The longest body.
pub const MOST_BODY: usize = 1_048_576;
/// The pairs after which a session takes no more.
pub const MOST_PAIRS: u32 = 65_535;
/// The largest count of calls that a session can go on from.
pub const MOST_CALLS: u64 = 540_991_427;

/// A session as document 01 lists its parts. Nothing is assumed of one made by hand.
#[derive(Clone, Debug, PartialEq)]
pub struct Session {
    pub lanes: Lanes,
    pub rate: u16,
    /// The tag length.
    pub tag: u16,
    /// Pairs accepted so far.
    pub pairs: u32,
    /// Permutation calls so far.
    pub calls: u64,
}

impl Session {
    /// Opens a session: refusals in the order 1, 2, 3, then the key.
    pub fn open(key: &[u8], rate: u16, tag: u16) -> Result<Session, Refusal> {
        refuse_if(!is_rate(rate.into()), RATE)?;
        refuse_if(!KEYS_AND_TAGS.contains(&key.len()), KEY)?;
        refuse_if(!KEYS_AND_TAGS.contains(&tag.into()), TAG_LENGTH)?;
        let mut duplex = Duplex::new([0; 25], rate.into());
        absorb(&mut duplex, key, true);
        Ok(Session {
            lanes: duplex.lanes,
            rate,
            tag,
            pairs: 0,
            calls: duplex.calls,
        })
    }

    /// Wraps a pair into ciphertext and tag, the first bytes of `out`: 1, 3, 7, 4, 5, 6.
    pub fn wrap(&mut self, header: &[u8], body: &[u8], out: &mut [u8]) -> Result<(), Refusal> {
        self.check()?;
        check_lengths(header, body)?;
        let end = body.len() + usize::from(self.tag);
        refuse_if(out.len() < end, ROOM)?;
        let mut duplex = self.duplex();
        let (ciphertext, mask) = masked(&mut duplex, header, body, Way::Seal);
        let tag = squeezed(&mut duplex, mask, self.tag.into());
        out[..body.len()].copy_from_slice(&ciphertext);
        out[body.len()..end].copy_from_slice(&tag);
        self.accept(duplex);
        Ok(())
    }

    /// Unwraps a pair into the first bytes of `body`: 1, 3, 7, 4, 5, 6, 8.
    pub fn unwrap(
        &mut self,
        header: &[u8],
        ciphertext: &[u8],
        tag: &[u8],
        body: &mut [u8],
    ) -> Result<(), Refusal> {
        self.check()?;
        check_lengths(header, ciphertext)?;
        refuse_if(body.len() < ciphertext.len(), ROOM)?;
        let mut duplex = self.duplex();
        let (plaintext, mask) = masked(&mut duplex, header, ciphertext, Way::Open);
        refuse_if(tag != squeezed(&mut duplex, mask, self.tag.into()), TAG)?;
        body[..plaintext.len()].copy_from_slice(&plaintext);
        self.accept(duplex);
        Ok(())
    }

    /// What every call that seals or opens a pair asks of its session: 1, 3, 7.
    pub fn check(&self) -> Result<(), Refusal> {
        refuse_if(!is_rate(self.rate.into()), RATE)?;
        refuse_if(!KEYS_AND_TAGS.contains(&self.tag.into()), TAG_LENGTH)?;
        refuse_if(self.pairs >= MOST_PAIRS || self.calls > MOST_CALLS, SPENT)
    }

    /// The duplex object that goes on where this session stands.
    fn duplex(&self) -> Duplex {
        Duplex::new(self.lanes, self.rate.into())
    }

    /// Takes over what the duplex object came to with one more pair.
    fn accept(&mut self, duplex: Duplex) {
        self.lanes = duplex.lanes;
        self.pairs += 1;
        self.calls += duplex.calls;
    }
}

/// Refuses by that number if the fault is there.
pub fn refuse_if(fault: bool, number: Refusal) -> Result<(), Refusal> {
    match fault {
        true => Err(number),
        false => Ok(()),
    }
}

/// The limits of a pair: 4, 5.
pub fn check_lengths(header: &[u8], body: &[u8]) -> Result<(), Refusal> {
    refuse_if(header.len() > MOST_HEADER, HEADER)?;
    refuse_if(body.len() > MOST_BODY, BODY)
}

/// Absorbs a string: its pieces have the frame bit `more`, the last has the other one. Gives the
/// output after the last.
fn absorb(duplex: &mut Duplex, string: &[u8], more: bool) -> Vec<u8> {
    let pieces = pieces(string, duplex.rate);
    let (last, before) = pieces.split_last().unwrap();
    for piece in before {
        duplex.duplexing(piece, more);
    }
    duplex.duplexing(last, !more)
}

/// Whether a text is sealed or opened: which side of the mask is the plaintext.
#[derive(PartialEq)]
enum Way {
    Seal,
    Open,
}

/// Absorbs a header, then xors each piece of the text with the output before it and absorbs the
/// plaintext of the two. Gives the xored text and the output after its last piece.
fn masked(duplex: &mut Duplex, header: &[u8], text: &[u8], way: Way) -> (Vec<u8>, Vec<u8>) {
    let mut mask = absorb(duplex, header, false);
    let mut result = Vec::new();
    let pieces = pieces(text, duplex.rate);
    for (i, piece) in pieces.iter().enumerate() {
        let other: Vec<u8> = piece.iter().zip(mask).map(|(a, b)| a ^ b).collect();
        let plain = if way == Way::Seal { piece } else { &other[..] };
        let more = i + 1 < pieces.len();
        mask = duplex.duplexing(plain, more);
        result.extend(other);
    }
    (result, mask)
}

/// A tag: the output after the last piece, and empty pieces while more is needed.
fn squeezed(duplex: &mut Duplex, output: Vec<u8>, length: usize) -> Vec<u8> {
    let mut tag = output;
    while tag.len() < length {
        tag.extend(duplex.duplexing(&[], false));
    }
    tag.truncate(length);
    tag
}
