//! Buffers with a watch on both their ends, and a look at all that a call leaves.

use crate::pages::Pages;
use std::fmt::Debug;
use std::ops::Range;

/// Where a lent buffer stands in memory.
#[derive(Clone, Copy, Debug)]
enum Position {
    /// Its last byte is the last before a page that may not be touched.
    BeforeAPage,
    /// Its first byte is the first after a page that may not be touched.
    AfterAPage,
    /// Its first byte has an odd address, with watched bytes on both sides.
    AtAnOddAddress,
}

/// Each position; every call of the library's is made in all of them.
const POSITIONS: [Position; 3] = [
    Position::BeforeAPage,
    Position::AfterAPage,
    Position::AtAnOddAddress,
];

/// How many bytes are watched on each side of a buffer, where there are as many before a page. It
/// is odd, and pages begin at even addresses.
const MARGIN: usize = 65;

/// What the watched bytes hold.
const WATCHED: u8 = 0xA5;

/// A buffer to lend, with watched bytes next to it that nobody may write.
struct Guarded {
    pages: Pages,
    lent: Range<usize>,
}

impl Guarded {
    /// A buffer that holds a copy of the content.
    fn new(content: &[u8], position: Position) -> Self {
        let mut pages = Pages::holding(content.len() + 2 * MARGIN);
        let bytes = pages.bytes_mut();
        let start = match position {
            Position::BeforeAPage => bytes.len() - content.len(),
            Position::AfterAPage => 0,
            Position::AtAnOddAddress => MARGIN,
        };
        let lent = start..start + content.len();
        bytes[before(&lent)].fill(WATCHED);
        bytes[lent.clone()].copy_from_slice(content);
        let after = after(&lent, bytes.len());
        bytes[after].fill(WATCHED);
        Guarded { pages, lent }
    }

    /// The part that is lent.
    fn lent(&mut self) -> &mut [u8] {
        &mut self.pages.bytes_mut()[self.lent.clone()]
    }

    /// What the lent part holds now, once the watched bytes are seen to stand.
    fn content(&self) -> &[u8] {
        let bytes = self.pages.bytes();
        let [before, after] = [before(&self.lent), after(&self.lent, bytes.len())];
        let mut watched = bytes[before].iter().chain(&bytes[after]);
        assert!(
            watched.all(|byte| *byte == WATCHED),
            "written past a buffer"
        );
        &bytes[self.lent.clone()]
    }

    /// The same at a call's end.
    fn left(self) -> Vec<u8> {
        let content = self.content().to_vec();
        self.pages.give_back();
        content
    }
}

/// The watched bytes before a lent part.
fn before(lent: &Range<usize>) -> Range<usize> {
    lent.start.saturating_sub(MARGIN)..lent.start
}

/// The watched bytes after it, of so many bytes in all.
fn after(lent: &Range<usize>, all: usize) -> Range<usize> {
    lent.end..all.min(lent.end + MARGIN)
}

/// What can be seen of a call: its answer, then the image and the lent buffer at its end.
#[derive(Clone, PartialEq)]
pub struct Seen<A> {
    pub answer: A,
    pub image: Vec<u8>,
    pub lent: Vec<u8>,
}

/// Makes one call by the library on an image, a buffer and strings to read, and the same by the
/// reference, and answers what they agree on; or panics, saying where they part.
pub fn compared<const N: usize, A: PartialEq + Debug>(
    image: &[u8],
    lent: &[u8],
    strings: [&[u8]; N],
    library: impl Fn(&mut [u8], &mut [u8], [&[u8]; N]) -> A,
    reference: impl FnOnce(&mut [u8], &mut [u8]) -> A,
) -> Seen<A> {
    let (mut left_image, mut left_lent) = (image.to_vec(), lent.to_vec());
    let due = Seen {
        answer: reference(&mut left_image, &mut left_lent),
        image: left_image,
        lent: left_lent,
    };
    for position in POSITIONS {
        let seen = seen(position, image, lent, strings, &library);
        assert_eq!(seen.answer, due.answer, "answers differ, {position:?}");
        let images = difference(&seen.image, &due.image);
        assert_eq!(images, None, "images differ, {position:?}");
        let buffers = difference(&seen.lent, &due.lent);
        assert_eq!(buffers, None, "buffers differ, {position:?}");
    }
    due
}

/// Sees one call on copies of everything, which stand as the position says. What was lent to be
/// read is seen to be as it was.
fn seen<const N: usize, A>(
    position: Position,
    image: &[u8],
    lent: &[u8],
    strings: [&[u8]; N],
    call: impl Fn(&mut [u8], &mut [u8], [&[u8]; N]) -> A,
) -> Seen<A> {
    let mut image = Guarded::new(image, position);
    let mut lent = Guarded::new(lent, position);
    let copies = strings.map(|string| Guarded::new(string, position));
    let readable = copies.each_ref().map(Guarded::content);
    let answer = call(image.lent(), lent.lent(), readable);
    let left = copies.map(Guarded::left);
    assert!(left == strings, "written to what was lent to be read");
    Seen {
        answer,
        image: image.left(),
        lent: lent.left(),
    }
}

/// The first place where two strings differ, with both bytes.
fn difference(a: &[u8], b: &[u8]) -> Option<(usize, u8, u8)> {
    // At once where they are equal, as they nearly always are: strings are long.
    if a == b {
        return None;
    }
    let both = a.iter().zip(b).enumerate();
    let mut places = both.filter(|(_, (a, b))| a != b);
    places.next().map(|(at, (a, b))| (at, *a, *b))
}
