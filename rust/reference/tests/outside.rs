//! Sessions and bundles against vectors from outside: of a program that was written from the paper
//! and the standard apart from this project's code.

mod response;

use reference::bundle;
use reference::keccak::bytes_of;
use reference::spongewrap::Session;
use response::{bytes, fields};
use std::collections::HashMap;

/// The latest value of each name, as a file is gone through.
#[derive(Default)]
struct Latest(HashMap<String, String>);

impl Latest {
    fn bytes(&self, name: &str) -> Vec<u8> {
        bytes(&self.0[name])
    }

    fn number<N: std::str::FromStr<Err = std::num::ParseIntError>>(&self, name: &str) -> N {
        self.0[name].parse().unwrap()
    }
}

/// Goes through a file: after each field, the step sees its name and the latest values.
fn go_through(file: &str, mut step: impl FnMut(&str, &Latest)) {
    let mut latest = Latest::default();
    for (name, value) in fields(file) {
        latest.0.insert(name.clone(), value);
        step(&name, &latest);
    }
}

/// Wraps the latest pair and unwraps what the file has for it.
fn check_pair(session: &mut Session, latest: &Latest) {
    let [header, body, cipher, tag] =
        ["Header", "Body", "Cipher", "Tag"].map(|name| latest.bytes(name));
    let (mut out, mut opened) = (vec![0; cipher.len() + tag.len()], vec![0; body.len()]);
    let mut receiver = session.clone();
    session.wrap(&header, &body, &mut out).unwrap();
    assert_eq!(out, [cipher.as_slice(), &tag].concat());
    receiver
        .unwrap(&header, &cipher, &tag, &mut opened)
        .unwrap();
    assert_eq!((opened, &receiver), (body, &*session));
}

#[test]
fn sessions() {
    let (mut session, mut pairs, mut sessions) = (None, 0, 0);
    go_through("SpongeWrap_sessions.rsp", |name, latest| match name {
        "Key" => {
            let (rate, tag) = (latest.number("Rate"), latest.number("TagLength"));
            session = Some(Session::open(&latest.bytes("Key"), rate, tag).unwrap());
        }
        "Tag" => {
            check_pair(session.as_mut().unwrap(), latest);
            pairs += 1;
        }
        "State" => {
            let session = session.take().unwrap();
            assert_eq!(bytes_of(&session.lanes).to_vec(), latest.bytes("State"));
            assert_eq!(session.pairs, latest.number("Pairs"));
            assert_eq!(session.calls, latest.number("Calls"));
            sessions += 1;
        }
        _ => {}
    });
    assert_eq!((sessions, pairs), (12, 24));
}

/// Opens every entry of a bundle and gives their bodies.
fn bodies(key: &[u8], bytes: &[u8]) -> Vec<Vec<u8>> {
    let mut reader = Session::open(key, 136, 16).unwrap();
    let (mut place, mut bodies) = (bundle::START, Vec::new());
    while place < bytes.len() {
        let entry = bundle::entry_at(bytes, place).unwrap();
        let mut body = vec![0; entry.ciphertext.len()];
        let next = bundle::open_entry(&mut reader, bytes, place as u64, &mut body);
        assert_eq!(next, Ok(entry.end as u64));
        bodies.push(body);
        place = entry.end;
    }
    bodies
}

#[test]
fn bundles() {
    let (mut writer, mut buffer) = (None, vec![0; 1_000]);
    let (mut sealed, mut bundles) = (Vec::new(), 0);
    go_through("Bundle_v1.rsp", |name, latest| match name {
        "Key" => writer = Some(Session::open(&latest.bytes("Key"), 136, 16).unwrap()),
        "Label" => {
            let writer = writer.as_mut().unwrap();
            bundle::start(writer, &latest.bytes("Label"), &mut buffer).unwrap();
            sealed = vec![Vec::new()];
        }
        "Body" => {
            let (header, body) = (latest.bytes("Header"), latest.bytes("Body"));
            bundle::add(writer.as_mut().unwrap(), &header, &body, &mut buffer).unwrap();
            sealed.push(body);
        }
        "Bundle" => {
            let due = latest.bytes("Bundle");
            assert_eq!(buffer[..due.len()], due);
            assert_eq!(bundle::survey(&due), Ok(sealed.len() as u64));
            assert_eq!(bodies(&latest.bytes("Key"), &due), sealed);
            bundles += 1;
        }
        _ => {}
    });
    assert_eq!(bundles, 3);
}
