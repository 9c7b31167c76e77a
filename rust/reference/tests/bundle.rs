//! Bundles against document 01: its worked example, its orders of refusals and its places.

use reference::bundle::*;
use reference::spongewrap::Session;

/// A refusal with its place.
fn refused<T>(number: u8, place: u64) -> Result<T, Refused> {
    Err(Refused { number, place })
}

/// A bundle's session, fresh from open.
fn session() -> Session {
    Session::open(&[7; 32], 136, 16).unwrap()
}

/// A bundle of entry zero and two more, sealed by a fresh session.
fn sealed() -> Vec<u8> {
    let (mut writer, mut buffer) = (session(), vec![0x5A; 1000]);
    start(&mut writer, &[0x41; 16], &mut buffer).unwrap();
    add(&mut writer, b"first", &[1; 200], &mut buffer).unwrap();
    add(&mut writer, b"", &[], &mut buffer).unwrap();
    let end = 5 + 38 + 227 + 22;
    assert!(buffer[end..].iter().all(|byte| *byte == 0x5A));
    buffer.truncate(end);
    buffer
}

/// The input of document 01's lister.
fn worked_example() -> Vec<u8> {
    let zero = [&[0, 16, 0, 0, 0, 0][..], &[0x41; 16], &[0; 16]].concat();
    let one = [&[0, 4, 0, 0, 0, 136][..], &[0x41; 4], &[0; 152]].concat();
    [&[1, 0, 0, 0, 0xC8][..], &zero, &one].concat()
}

#[test]
fn survey_of_the_worked_example() {
    let bundle = worked_example();
    assert_eq!(bundle.len(), 205);
    assert_eq!(survey(&bundle), Ok(2));
    let mut shorter = bundle[..204].to_vec();
    shorter[4] -= 1;
    assert_eq!(survey(&shorter), refused(9, 43));
}

/// The lines of document 01's listing, entry by entry.
#[test]
fn entries_of_the_worked_example() {
    let bundle = worked_example();
    let listed = [5, 43].map(|place| {
        let entry = entry_at(&bundle, place).unwrap();
        let (header, body) = (entry.header.len(), entry.ciphertext.len());
        (header, body, calls_of(header, body), entry.end)
    });
    assert_eq!(listed, [(16, 0, 2, 43), (4, 136, 3, 205)]);
}

#[test]
fn what_was_added_is_surveyed_and_opened() {
    let (bundle, mut reader) = (sealed(), session());
    assert_eq!(survey(&bundle), Ok(3));
    assert_eq!(open_entry(&mut reader, &bundle, 5, &mut []), Ok(43));
    let mut body = [0; 201];
    assert_eq!(open_entry(&mut reader, &bundle, 43, &mut body), Ok(270));
    assert_eq!((&body[..200], body[200]), (&[1; 200][..], 0));
    assert_eq!(open_entry(&mut reader, &bundle, 270, &mut body), Ok(292));
    assert_eq!(
        open_entry(&mut reader, &bundle, 292, &mut body),
        refused(9, 292)
    );
    assert_eq!(reader.pairs, 3);
}

#[test]
fn survey_refuses_in_its_order() {
    assert_eq!(survey(&[]), refused(9, 0));
    assert_eq!(survey(&[2]), refused(10, 0));
    assert_eq!(survey(&[1, 0, 0, 0]), refused(9, 1));
    assert_eq!(survey(&[1, 0, 0, 0, 1]), refused(9, 1));
    assert_eq!(survey(&[1, 0, 0, 0, 0]), refused(11, 5));
    assert_eq!(survey(&[1, 0, 0, 0, 1, 0]), refused(9, 5));
    assert_eq!(survey(&vec![2; 16_777_216]), refused(10, 0));
    assert_eq!(survey(&vec![2; 16_777_217]), refused(9, 0));
}

/// The three causes, each where the ones before it are not.
#[test]
fn places_without_an_entry() {
    let fault = |bundle: &[u8], place| entry_at(bundle, place).err();
    let entry = [0, 1, 0, 0, 0, 2, 9, 8, 8];
    let whole = [&entry[..], &[7; 16]].concat();
    assert_eq!(fault(&whole, 0), None);
    assert_eq!(fault(&whole[..24], 0), Some(Fault::Past));
    assert_eq!(fault(&entry[..6], 0), Some(Fault::Past));
    assert_eq!(fault(&entry[..5], 0), Some(Fault::Short));
    assert_eq!(fault(&[0, 0, 0, 0x10, 0, 0], 0), Some(Fault::Past));
    assert_eq!(fault(&[0, 0, 0, 0x10, 0, 1], 0), Some(Fault::Large));
    for place in [20, 25, 26, usize::MAX] {
        assert_eq!(fault(&whole, place), Some(Fault::Short));
    }
}

/// No length is too long to count the calls of.
#[test]
fn calls_of_any_lengths() {
    assert_eq!(calls_of(0, 0), 2);
    assert_eq!(calls_of(135, 136), 3);
    assert_eq!(calls_of(65_535, 1_048_576), 486 + 7_768);
    // 2^64 - 1 is 135 times 136,642,548,694,144,826 and 105 more.
    let most = 136_642_548_694_144_827;
    assert_eq!(calls_of(usize::MAX, usize::MAX), 2 * most);
}

/// Entry zero is judged last, after the entries behind it.
#[test]
fn entry_zero_is_judged_last() {
    let mut bundle = worked_example();
    bundle.drain(11..12);
    bundle[4] -= 1;
    bundle[6] -= 1;
    assert_eq!(survey(&bundle), refused(11, 5));
    bundle[44] = 0x11;
    assert_eq!(survey(&bundle), refused(9, 42));
}

#[test]
fn opening_refuses_at_its_place() {
    let (bundle, start) = (sealed(), session());
    let open = |session: &Session, place, room| {
        open_entry(&mut session.clone(), &bundle, place, &mut vec![0; room])
    };
    let other = |rate, tag, pairs| Session {
        rate,
        tag,
        pairs,
        ..start.clone()
    };
    assert_eq!(open(&other(168, 32, 65_535), 999, 0), refused(1, 999));
    assert_eq!(open(&other(136, 32, 65_535), 999, 0), refused(3, 999));
    assert_eq!(open(&other(136, 16, 65_535), 999, 0), refused(7, 999));
    assert_eq!(open(&start, 999, 0), refused(9, 999));
    assert_eq!(open(&start, u64::MAX, 0), refused(9, u64::MAX));
    assert_eq!(open(&start, 43, 199), refused(6, 43));
    assert_eq!(open(&start, 43, 200), refused(8, 43));
}

#[test]
fn start_and_add_refuse_in_their_orders() {
    let mut writer = session();
    assert_eq!(start(&mut writer, &[0; 15], &mut []), refused(11, 0));
    assert_eq!(start(&mut writer, &[0; 64], &mut [0; 90]), refused(6, 0));
    let long = vec![0; 1_048_577];
    assert_eq!(add(&mut writer, &long, &long, &mut []), refused(4, 0));
    assert_eq!(add(&mut writer, b"", &long, &mut []), refused(5, 0));
    assert_eq!(add(&mut writer, b"", b"", &mut [2; 4]), refused(9, 0));
    assert_eq!(add(&mut writer, b"", b"", &mut [2; 5]), refused(10, 0));
    assert_eq!(
        add(&mut writer, b"", b"", &mut [1, 0, 0, 0, 1]),
        refused(9, 1)
    );
    assert_eq!(
        add(&mut writer, b"", b"", &mut [1, 0, 0, 0, 0]),
        refused(6, 0)
    );
    assert_eq!(writer, session());
}
