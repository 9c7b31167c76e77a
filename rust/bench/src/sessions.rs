//! Rows of sessions: one pair wrapped and unwrapped at both rates.

use crate::messages::{row, Call, SIZES};
use crate::table::{Maker, Row};
use exports::desk::{unwrap, wrap};
use exports::probe::sessions::open;

/// The header of each pair.
pub const HEADER: [u8; 16] = [0x42; 16];

/// The tag length.
const TAG: usize = 16;

/// A session's image.
type Image = [u8; 216];

/// All rows of sessions.
pub fn rows() -> Vec<Row> {
    let both = |rate| SIZES.map(|size| [wrap_library(rate, size), unwrap_library(rate, size)]);
    [136, 168].into_iter().flat_map(both).flatten().collect()
}

/// Wraps a body; each call starts from the same session.
fn wrap_library(rate: u16, size: usize) -> Row {
    let start = opened(rate);
    let mut out = vec![0; size + TAG];
    let call: Call = Box::new(move |body| {
        let mut image = start;
        assert_eq!(wrap(&mut image, &HEADER, body, &mut out), 0);
    });
    session_row("wrap", rate, size, call)
}

/// Unwraps what the same session has wrapped.
fn unwrap_library(rate: u16, size: usize) -> Row {
    let start = opened(rate);
    let mut sealed = vec![0; size + TAG];
    assert_eq!(
        wrap(&mut start.clone(), &HEADER, &vec![0x41; size], &mut sealed),
        0
    );
    let mut out = vec![0; size];
    let call: Call = Box::new(move |body| {
        let (ciphertext, tag) = sealed.split_at(body.len());
        let mut image = start;
        assert_eq!(unwrap(&mut image, &HEADER, ciphertext, tag, &mut out), 0);
    });
    session_row("unwrap", rate, size, call)
}

/// A session of that rate, fresh from open.
pub fn opened(rate: u16) -> Image {
    let mut image = [0; 216];
    assert_eq!(open(rate, TAG as u16, &[0x43; 32], &mut image), 0);
    image
}

/// A row of the library's, with the blocks of header and body. An unwrap goes over them twice,
/// but is held to one time.
fn session_row(name: &str, rate: u16, size: usize, call: Call) -> Row {
    let pieces = size.div_ceil(usize::from(rate) - 1).max(1);
    let name = format!("{name} at {rate}");
    row(&name, Maker::Library, size, 1 + pieces, Some(call))
}
