//! The numbers of include/feefledown.h against the reference's: a C program has no others.

use reference::desk::IMAGE;
use reference::spongewrap::*;
use std::collections::BTreeMap;

/// Every macro of the header that is a number, without the library's prefix and its own version.
fn macros() -> BTreeMap<&'static str, usize> {
    let header = include_str!("../../../../include/feefledown.h");
    let words = header.lines().map(|line| line.split_whitespace());
    words
        .filter_map(|mut words| {
            words.next().filter(|word| *word == "#define")?;
            let name = words.next()?.strip_prefix("FEEFLEDOWN_")?;
            let value = words.next()?.parse().ok()?;
            (!name.starts_with("VERSION")).then_some((name, value))
        })
        .collect()
}

#[test]
fn every_number_is_the_references() {
    let due = [
        ("IMAGE", IMAGE),
        ("TAG", exports::desk::TAG.into()),
        ("DIGEST", reference::sponge::sha3_256(b"").len()),
        ("KEY_LEAST", *KEYS_AND_TAGS.start()),
        ("KEY_MOST", *KEYS_AND_TAGS.end()),
        ("HEADER_MOST", MOST_HEADER),
        ("BODY_MOST", MOST_BODY),
        ("ACCEPTED", 0),
        ("BAD_RATE", RATE.into()),
        ("BAD_KEY", KEY.into()),
        ("BAD_TAG_LENGTH", TAG_LENGTH.into()),
        ("LONG_HEADER", HEADER.into()),
        ("LONG_BODY", BODY.into()),
        ("NO_ROOM", ROOM.into()),
        ("FULL", SPENT.into()),
        ("WRONG_TAG", TAG.into()),
    ];
    assert_eq!(macros(), BTreeMap::from(due));
}
