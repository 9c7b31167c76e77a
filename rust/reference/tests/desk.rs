//! Images of sessions, and the digest that is lent.

use reference::desk::{on_image, open, sha3_256, IMAGE};
use reference::sponge;
use reference::spongewrap::{Refusal, Session, KEY, ROOM};

/// An image is a session and a session is an image, whatever the numbers in it.
#[test]
fn images_go_there_and_back() {
    let image: [u8; IMAGE] = std::array::from_fn(|i| (7 * i) as u8);
    let session = Session::from_image(&image);
    assert_eq!(session.to_image(), image);
    assert_eq!(session.lanes[0], 0x312A231C150E0700);
    assert_eq!(session.rate, 0x787F);
    assert_eq!(session.tag, 0x868D);
    assert_eq!(session.pairs, 0x949BA2A9);
    assert_eq!(session.calls, 0xB0B7BEC5CCD3DAE1);
}

#[test]
fn an_image_advances_on_success_alone() {
    let mut image = [0x5A; IMAGE];
    assert_eq!(open(136, 16, &[1; 15], &mut image), Err(KEY));
    assert_eq!(image, [0x5A; IMAGE]);
    assert_eq!(open(136, 16, &[1; 16], &mut image), Ok(()));
    let mut session = Session::open(&[1; 16], 136, 16).unwrap();
    assert_eq!(image, session.to_image());
    let mut out = [0; 16];
    assert_eq!(
        on_image(&mut image, |session| session.wrap(b"", b"", &mut out)),
        Ok(())
    );
    session.wrap(b"", b"", &mut [0; 16]).unwrap();
    assert_eq!(image, session.to_image());
}

#[test]
fn an_image_of_another_length_is_refused_first() {
    for length in [0, 215, 217] {
        let mut image = vec![0x5A; length];
        let answer: Result<(), Refusal> = on_image(&mut image, |_| unreachable!());
        assert_eq!(answer, Err(ROOM));
        assert_eq!(open(0, 0, &[], &mut image), Err(ROOM));
        assert!(image.iter().all(|byte| *byte == 0x5A));
    }
}

#[test]
fn a_digest_has_room_or_is_not_written() {
    let mut digest = [0x5A; 33];
    assert_eq!(sha3_256(b"abc", &mut digest[..31]), Err(ROOM));
    assert_eq!(digest, [0x5A; 33]);
    assert_eq!(sha3_256(b"abc", &mut digest), Ok(()));
    assert_eq!(
        (&digest[..32], digest[32]),
        (&sponge::sha3_256(b"abc")[..], 0x5A)
    );
}
