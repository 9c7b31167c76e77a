//! The duplex object and sessions against document 01's worked examples and its third demand:
//! whatever was done, one plain sponge over the padded blocks gives the same state, masks and tags.

use reference::duplex::{blocks, padded, pieces, Duplex};
use reference::keccak::{bytes_of, lanes_of, permuted_1600};
use reference::spongewrap::*;

/// A string whose bytes differ from those of its neighbours.
fn string(length: usize, seed: usize) -> Vec<u8> {
    (0..length)
        .map(|i| (i * i + 31 * i + seed * 17) as u8)
        .collect()
}

/// The plain sponge of demand 3: it absorbs padded blocks and pads nothing further.
struct Plain {
    state: [u8; 200],
    rate: usize,
    blocks: u64,
}

impl Plain {
    /// A sponge that has absorbed nothing.
    fn new(rate: usize) -> Self {
        Plain {
            state: [0; 200],
            rate,
            blocks: 0,
        }
    }

    /// Absorbs one string's blocks; the pieces before the last have the frame bit `more`.
    fn absorb(&mut self, string: &[u8], more: bool) {
        let pieces = pieces(string, self.rate);
        for (i, piece) in pieces.iter().enumerate() {
            self.absorb_piece(piece, more == (i + 1 < pieces.len()));
        }
    }

    /// Absorbs one padded block.
    fn absorb_piece(&mut self, piece: &[u8], frame: bool) {
        for (at, byte) in padded(piece, frame, self.rate).iter().enumerate() {
            self.state[at] ^= byte;
        }
        self.state = bytes_of(&permuted_1600(lanes_of(&self.state)));
        self.blocks += 1;
    }

    /// Seals a pair by outputs read off at each point.
    fn sealed(&mut self, header: &[u8], body: &[u8], tag: usize) -> Vec<u8> {
        let mut out = Vec::new();
        self.absorb(header, false);
        let pieces = pieces(body, self.rate);
        for (i, piece) in pieces.iter().enumerate() {
            out.extend(piece.iter().zip(self.state).map(|(a, b)| a ^ b));
            self.absorb_piece(piece, i + 1 < pieces.len());
        }
        let mut output = self.state[..self.rate - 1].to_vec();
        while output.len() < tag {
            self.absorb_piece(&[], false);
            output.extend(&self.state[..self.rate - 1]);
        }
        out.extend(&output[..tag]);
        out
    }
}

#[test]
fn padded_pieces_of_document_01() {
    let empty = padded(&[], false, 136);
    assert_eq!((empty[0], empty[135]), (0x02, 0x80));
    assert_eq!(padded(&[], true, 136)[0], 0x03);
    let nearly = padded(&[0x41; 134], true, 136);
    assert_eq!((nearly[134], nearly[135]), (0x03, 0x80));
    assert_eq!(padded(&[0x41; 135], false, 136)[135], 0x82);
    assert_eq!(padded(&[0x41; 135], true, 136)[135], 0x83);
}

#[test]
fn block_counts_of_document_01() {
    let counts = [0, 135, 136, 270, 271].map(|length| blocks(length, 136));
    assert_eq!(counts, [1, 1, 2, 2, 3]);
    assert_eq!([167, 168].map(|length| blocks(length, 168)), [1, 2]);
    let largest = blocks(MOST_HEADER, 136) + blocks(MOST_BODY, 136) + blocks(256, 136) - 1;
    assert_eq!(largest, 8_255);
    assert_eq!(
        u64::from(MOST_PAIRS) * largest + blocks(256, 136),
        MOST_CALLS
    );
}

#[test]
fn every_piece_takes_a_block() {
    let bytes = string(1_000, 5);
    for rate in [136, 168] {
        for length in 0..=bytes.len() {
            let pieces = pieces(&bytes[..length], rate);
            assert_eq!(blocks(length, rate), pieces.len() as u64);
        }
    }
}

/// An output may have every length up to the rate.
#[test]
fn one_plain_sponge_gives_every_output() {
    for rate in [136, 168] {
        let (mut duplex, mut plain) = (Duplex::new([0; 25], rate), Plain::new(rate));
        for length in 0..=rate {
            let (piece, frame) = (string(rate - length.max(1), length), length % 2 == 0);
            let mut out = vec![0; length];
            assert!(duplex.duplexing_into(&piece, frame, &mut out));
            plain.absorb_piece(&piece, frame);
            assert_eq!(out, plain.state[..length]);
        }
    }
}

#[test]
fn past_its_limits_a_duplexing_does_nothing() {
    for (rate, piece, out) in [
        (136, 136, 0),
        (136, 0, 137),
        (168, 168, 0),
        (168, 0, 169),
        (0, 0, 0),
        (135, 0, 0),
        (200, 0, 0),
    ] {
        let lanes = std::array::from_fn(|i| i as u64);
        let (mut duplex, mut lent) = (Duplex::new(lanes, rate), vec![0x5A; out]);
        assert!(!duplex.duplexing_into(&vec![1; piece], true, &mut lent));
        assert_eq!((duplex.lanes, duplex.rate, duplex.calls), (lanes, rate, 0));
        assert_eq!(lent, vec![0x5A; out]);
    }
}

#[test]
fn session_counts_of_document_01() {
    let mut session = Session::open(&[7; 32], 136, 16).unwrap();
    assert_eq!((session.pairs, session.calls), (0, 1));
    session.wrap(&[8; 16], &[], &mut [0; 16]).unwrap();
    assert_eq!((session.pairs, session.calls), (1, 3));
}

#[test]
fn keys_of_document_01() {
    let answers = [15, 16, 256, 257].map(|length| Session::open(&vec![7; length], 136, 16).err());
    assert_eq!(answers, [Some(KEY), None, None, Some(KEY)]);
}

/// Demand 3, over both rates, tags of one to two blocks, and empty, full and long strings.
#[test]
fn one_plain_sponge_gives_all() {
    for (rate, tag) in [(136, 16), (136, 136), (136, 256), (168, 32), (168, 256)] {
        let key = string(200, tag);
        let mut session = Session::open(&key, rate as u16, tag as u16).unwrap();
        let mut plain = Plain::new(rate);
        plain.absorb(&key, true);
        for (number, length) in [0, 1, rate - 2, rate - 1, rate, 3 * rate]
            .iter()
            .enumerate()
        {
            let header = string(*length, number);
            let body = string(3 * rate - length, number + 1);
            let mut out = vec![0; body.len() + tag];
            session.wrap(&header, &body, &mut out).unwrap();
            assert_eq!(out, plain.sealed(&header, &body, tag));
            assert_eq!(bytes_of(&session.lanes), plain.state);
            assert_eq!(session.calls, plain.blocks);
            assert_eq!(session.pairs, number as u32 + 1);
        }
    }
}

/// What was wrapped comes back, and both ends agree on the session after it.
#[test]
fn what_was_wrapped_comes_back() {
    for (rate, tag) in [(136, 16), (168, 200)] {
        let mut sender = Session::open(&string(16, 1), rate, tag).unwrap();
        let mut receiver = sender.clone();
        for length in [0, 1, 134, 135, 136, 167, 168, 1000] {
            let (header, body) = (string(length, 2), string(1000 - length, 3));
            let mut out = vec![0; body.len() + usize::from(tag)];
            sender.wrap(&header, &body, &mut out).unwrap();
            let (ciphertext, tag) = out.split_at(body.len());
            let mut opened = vec![0; body.len()];
            receiver
                .unwrap(&header, ciphertext, tag, &mut opened)
                .unwrap();
            assert_eq!(opened, body);
            assert_eq!(receiver, sender);
        }
    }
}

/// A tag that differs in any bit leaves session and body as they were.
#[test]
fn wrong_tags_release_nothing() {
    let start = Session::open(&string(16, 4), 136, 16).unwrap();
    let mut out = [0; 36];
    start.clone().wrap(b"header", &[9; 20], &mut out).unwrap();
    for bit in 0..8 * out.len() {
        let mut damaged = out;
        damaged[bit / 8] ^= 1 << (bit % 8);
        let (ciphertext, tag) = damaged.split_at(20);
        let (mut session, mut body) = (start.clone(), [0x5A; 20]);
        let answer = session.unwrap(b"header", ciphertext, tag, &mut body);
        assert_eq!(
            (answer, session, body),
            (Err(TAG), start.clone(), [0x5A; 20])
        );
    }
}
