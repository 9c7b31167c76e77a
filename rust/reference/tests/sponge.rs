//! The hashes against every case of NIST's response files, and against blocks padded by hand.

mod response;

use reference::keccak::{bytes_of, lanes_of, permuted_1600};
use reference::sponge::{sha3_256, shake128, shake256, Absorbing};
use std::collections::HashMap;

/// One of the two functions that fill a slice.
type Shake = fn(&[u8], &mut [u8]);

/// The latest value of each name in a response file, up to the end of one case.
#[derive(Clone, Default)]
struct Case(HashMap<String, String>);

impl Case {
    /// The value of a name that is a number.
    fn number(&self, name: &str) -> Option<usize> {
        self.0.get(name).map(|digits| digits.parse().unwrap())
    }

    /// The value of a name that is a string of bytes in hexadecimal digits.
    fn bytes(&self, name: &str) -> Vec<u8> {
        response::bytes(&self.0[name])
    }

    /// The message: the file spells an empty one as one byte, so its length in bits decides.
    fn message(&self) -> Vec<u8> {
        let mut message = self.bytes("Msg");
        if let Some(bits) = self.number("Len") {
            assert_eq!(bits % 8, 0);
            message.truncate(bits / 8);
        }
        message
    }
}

/// All cases of a response file; each ends at its digest or output.
fn cases(file: &str) -> Vec<Case> {
    let mut latest = Case::default();
    let mut cases = Vec::new();
    for (name, value) in response::fields(file) {
        let ends = name == "MD" || name == "Output";
        latest.0.insert(name, value);
        if ends {
            cases.push(latest.clone());
        }
    }
    cases
}

/// Holds SHA3-256 to a file of so many messages.
fn check_sha3_256(file: &str, count: usize) {
    let cases = cases(file);
    assert_eq!(cases.len(), count, "{file}");
    for case in cases {
        assert_eq!(sha3_256(&case.message()).to_vec(), case.bytes("MD"));
    }
}

/// Holds a SHAKE to a file of so many messages.
fn check_shake(shake: Shake, file: &str, count: usize) {
    let cases = cases(file);
    assert_eq!(cases.len(), count, "{file}");
    for case in cases {
        let mut out = vec![0; case.number("Outputlen").unwrap() / 8];
        shake(&case.message(), &mut out);
        assert_eq!(out, case.bytes("Output"));
    }
}

/// Follows a SHAKE's Monte Carlo chain: each output gives the next message and the next length.
fn check_shake_chain(shake: Shake, file: &str) {
    let cases = cases(file);
    assert_eq!(cases.len(), 100, "{file}");
    let least = cases[0].number("Minimum Output Length (bits)").unwrap() / 8;
    let most = cases[0].number("Maximum Output Length (bits)").unwrap() / 8;
    let mut output = cases[0].bytes("Msg");
    let mut length = most;
    for case in cases {
        for _ in 0..1000 {
            output.resize(16, 0);
            let message = std::mem::replace(&mut output, vec![0; length]);
            shake(&message, &mut output);
            let last = u16::from_be_bytes([output[length - 2], output[length - 1]]);
            length = least + usize::from(last) % (most - least + 1);
        }
        assert_eq!(case.number("Outputlen"), Some(8 * output.len()));
        assert_eq!(output, case.bytes("Output"));
    }
}

#[test]
fn sha3_256_short_and_long_messages() {
    check_sha3_256("SHA3_256ShortMsg.rsp", 137);
    check_sha3_256("SHA3_256LongMsg.rsp", 100);
}

#[test]
fn sha3_256_monte_carlo() {
    let cases = cases("SHA3_256Monte.rsp");
    assert_eq!(cases.len(), 100);
    let mut digest = cases[0].bytes("Seed");
    for case in cases {
        digest = (0..1000).fold(digest, |digest, _| sha3_256(&digest).to_vec());
        assert_eq!(digest, case.bytes("MD"));
    }
}

#[test]
fn shake128_short_long_and_variable_output() {
    check_shake(shake128, "SHAKE128ShortMsg.rsp", 337);
    check_shake(shake128, "SHAKE128LongMsg.rsp", 100);
    check_shake(shake128, "SHAKE128VariableOut.rsp", 1126);
}

#[test]
fn shake128_monte_carlo() {
    check_shake_chain(shake128, "SHAKE128Monte.rsp");
}

#[test]
fn shake256_short_long_and_variable_output() {
    check_shake(shake256, "SHAKE256ShortMsg.rsp", 273);
    check_shake(shake256, "SHAKE256LongMsg.rsp", 100);
    check_shake(shake256, "SHAKE256VariableOut.rsp", 1246);
}

#[test]
fn shake256_monte_carlo() {
    check_shake_chain(shake256, "SHAKE256Monte.rsp");
}

/// Document 01's example: after 135 bytes, suffix and last bit meet in 0x86.
#[test]
fn padding_of_135_bytes_meets_in_one_byte() {
    let mut block = [0x41; 200];
    block[135] = 0x86;
    block[136..].fill(0);
    let state = bytes_of(&permuted_1600(lanes_of(&block)));
    assert_eq!(sha3_256(&[0x41; 135]), state[..32]);
}

/// A message that fills its blocks gets one more, of padding alone.
#[test]
fn full_blocks_get_one_more() {
    let mut block = [0x41; 200];
    block[136..].fill(0);
    let mut lanes = permuted_1600(lanes_of(&block));
    lanes[0] ^= 0x06;
    lanes[16] ^= 0x80 << 56;
    let state = bytes_of(&permuted_1600(lanes));
    assert_eq!(sha3_256(&[0x41; 136]), state[..32]);
}

/// Parts of a message and parts of an output join without a seam.
#[test]
fn parts_give_what_the_whole_gives() {
    let message: Vec<u8> = (0..1000).map(|i| i as u8).collect();
    let mut whole = [0; 700];
    shake128(&message, &mut whole);
    for part in [1, 7, 135, 136, 167, 168, 169, 999] {
        let mut sponge = Absorbing::new(168);
        message.chunks(part).for_each(|part| sponge.absorb(part));
        let mut sponge = sponge.padded(0x1F);
        let mut out = [0; 700];
        out.chunks_mut(part).for_each(|part| sponge.squeeze(part));
        assert_eq!(out, whole, "parts of {part}");
    }
}
