//! What the lister prints, byte for byte, beside the text that document 01 asks for.

use compare::bundles::{any_bundle, bundle_of, entry, state_end};
use compare::random::Random;
use compare::sessions::{flip, string};
use reference::bundle::{calls_of, entry_at, survey, START};
use std::io::{ErrorKind, Write};
use std::path::Path;
use std::process::{Command, Stdio};

/// The most bytes that the lister takes.
const MOST_INPUT: usize = 65_536;

/// The text for an input: a refusal's line, or the lines of a sound bundle.
fn listing(input: &[u8]) -> String {
    if input.len() > MOST_INPUT {
        return "refused 6 at 65536\n".to_string();
    }
    match survey(input) {
        Ok(entries) => lines(input, entries),
        Err(refused) => format!("refused {} at {}\n", refused.number, refused.place),
    }
}

/// The lines of a sound bundle: the whole, each entry, and the sum of the calls.
fn lines(bundle: &[u8], entries: u64) -> String {
    let mut text = format!("version 1 bytes {} entries {entries}\n", bundle.len());
    let (mut place, mut sum) = (START, 0);
    for number in 0..entries {
        let entry = entry_at(bundle, place).unwrap();
        let (header, body) = (entry.header.len(), entry.ciphertext.len());
        let calls = calls_of(header, body);
        text += &format!("{number} at {place} header {header} body {body} calls {calls}\n");
        (place, sum) = (entry.end, sum + calls);
    }
    text + &format!("calls {sum}\n")
}

/// What the lister prints for an input.
fn printed(input: &[u8]) -> String {
    let program = Path::new(env!("CARGO_MANIFEST_DIR")).join("../../target/bin/lister");
    assert!(
        program.exists(),
        "{} is missing: build it by `make target/bin/lister`",
        program.display()
    );
    let mut lister = Command::new(program)
        .stdin(Stdio::piped())
        .stdout(Stdio::piped())
        .stderr(Stdio::piped())
        .spawn()
        .unwrap();
    // It reads one byte too many and no more; what is past that may find nobody to take it.
    if let Err(error) = lister.stdin.take().unwrap().write_all(input) {
        assert!(error.kind() == ErrorKind::BrokenPipe && input.len() > MOST_INPUT);
    }
    let output = lister.wait_with_output().unwrap();
    assert!(output.status.success() && output.stderr.is_empty());
    String::from_utf8(output.stdout).unwrap()
}

/// What the lister prints for an input, once it is seen to be the text.
fn listed(input: &[u8]) -> String {
    let text = printed(input);
    assert_eq!(text, listing(input));
    text
}

/// Entry zero with the shortest label: it takes 38 bytes.
fn zero() -> Vec<u8> {
    entry(&[0x41; 16], 0)
}

/// A bundle of entry zero and those after it.
fn bundle_with(entries: impl IntoIterator<Item = Vec<u8>>) -> Vec<u8> {
    let all: Vec<_> = [zero()].into_iter().chain(entries).collect();
    bundle_of(&all)
}

#[test]
fn the_example_of_document_01() {
    let input = include_bytes!("../../../crates/lister/stdin");
    let text = "version 1 bytes 205 entries 2
0 at 5 header 16 body 0 calls 2
1 at 43 header 4 body 136 calls 3
calls 5
";
    assert_eq!(listed(input), text);
}

/// Of the lengths 0 to 272, 136 take one block, 135 take two and 2 take three: 412 in all. The
/// other part of each of the 273 entries is empty and takes one, and entry zero takes two.
#[test]
fn headers_and_bodies_of_every_short_length() {
    let bodies = bundle_with((0..=272).map(|body| entry(&[], body)));
    let headers = bundle_with((0..=272).map(|header| entry(&vec![0x42; header], 0)));
    for bundle in [bodies, headers] {
        assert!(listed(&bundle).ends_with("\ncalls 687\n"));
    }
}

#[test]
fn whole_pieces_and_next_to_them() {
    let lengths = [
        0, 1, 134, 135, 136, 269, 270, 271, 404, 405, 406, 1_350, 13_500, 13_501,
    ];
    for header in lengths {
        for body in lengths {
            let text = listed(&bundle_with([entry(&vec![0x42; header], body)]));
            assert!(text.contains(&format!("\n1 at 43 header {header} body {body} calls ")));
        }
    }
}

/// Each entry has a line of its own, though the headers are the same and the bodies are empty.
#[test]
fn repeated_headers() {
    for many in [1, 2, 9, 10, 11, 99, 100, 101, 999, 1_000, 1_001] {
        let text = listed(&bundle_with(vec![entry(b"same", 0); many]));
        assert_eq!(text.lines().count(), many + 3);
        assert!(text.ends_with(&format!("\ncalls {}\n", 2 * many + 2)));
    }
}

#[test]
fn labels_of_every_length() {
    for length in 0..=70 {
        let label = vec![0x41; length];
        let sound = (16..=64).contains(&length);
        let text = listed(&bundle_of(&[entry(&label, 0), entry(b"more", 9)]));
        assert_eq!(text == "refused 11 at 5\n", !sound);
        let text = listed(&bundle_of(&[entry(&label, 1), entry(b"more", 9)]));
        assert_eq!(text, "refused 11 at 5\n");
    }
}

#[test]
fn first_bytes_that_are_not_a_bundles() {
    assert_eq!(listed(&[]), "refused 9 at 0\n");
    for version in [0, 2, b'1', 255] {
        assert_eq!(listed(&[version]), "refused 10 at 0\n");
        let mut bundle = bundle_with([]);
        bundle[0] = version;
        assert_eq!(listed(&bundle), "refused 10 at 0\n");
    }
    for length in 1..5 {
        assert_eq!(listed(&[1, 0, 0, 0][..length]), "refused 9 at 1\n");
    }
    for stated in [0, 1, 37, 39, 43, 1 << 24, u32::MAX] {
        let mut bundle = bundle_with([]);
        bundle[1..5].copy_from_slice(&stated.to_be_bytes());
        assert_eq!(listed(&bundle), "refused 9 at 1\n");
    }
    assert_eq!(listed(&[1, 0, 0, 0, 0]), "refused 11 at 5\n");
}

#[test]
fn entries_that_are_not_whole() {
    for left in 1..6 {
        assert_eq!(listed(&bundle_of(&[vec![0; left]])), "refused 9 at 5\n");
        let bundle = bundle_with([vec![0; left]]);
        assert_eq!(listed(&bundle), "refused 9 at 43\n");
    }
    for body in [1_048_576_u32, 1_048_577, 0x0100_0000, u32::MAX] {
        let mut large = entry(b"name", 60_000);
        large[2..6].copy_from_slice(&body.to_be_bytes());
        assert_eq!(listed(&bundle_with([large])), "refused 9 at 43\n");
    }
    let whole = entry(b"name", 200);
    for length in 6..whole.len() {
        let bundle = bundle_with([whole[..length].to_vec()]);
        assert_eq!(listed(&bundle), "refused 9 at 43\n");
    }
}

/// A bundle cut at every length, with its stated length left alone and put right.
#[test]
fn cut_bundles() {
    let whole = bundle_with([entry(b"", 0), entry(b"name", 136), entry(b"name", 3)]);
    for end in START..whole.len() {
        let mut bundle = whole[..end].to_vec();
        assert_eq!(listed(&bundle), "refused 9 at 1\n");
        state_end(&mut bundle, end);
        let text = listed(&bundle);
        assert_eq!(text.starts_with("version"), [43, 65, 227].contains(&end));
    }
}

/// Every single bit changed. No tag is looked at, so only the bits of lengths and version count.
#[test]
fn flipped_bundles() {
    let whole = bundle_with([entry(b"name", 5)]);
    let text = listed(&whole);
    for bit in 0..8 * whole.len() {
        let mut bundle = whole.clone();
        flip(&mut bundle, bit);
        let counts = bit / 8 < 11 || (43..49).contains(&(bit / 8));
        assert_eq!(listed(&bundle) != text, counts, "bit {bit}");
    }
}

#[test]
fn bundles_as_they_come() {
    let mut random = Random::new(61);
    let texts = (0..1_500).map(|_| listed(&any_bundle(&mut random)));
    let sound = texts.filter(|text| text.starts_with("version")).count();
    assert!((50..1_450).contains(&sound), "{sound} are sound");
}

/// Arbitrary bytes, and such behind a version and a stated length that are right.
#[test]
fn arbitrary_bytes() {
    let mut random = Random::new(62);
    for _ in 0..300 {
        let bytes = string(&mut random);
        assert!(listed(&bytes).starts_with("refused"));
        listed(&bundle_of(&[bytes]));
    }
}

/// A bundle of exactly so many bytes.
fn bundle_of_length(length: usize) -> Vec<u8> {
    let bundle = bundle_with([entry(b"name", length - 69)]);
    assert_eq!(bundle.len(), length);
    bundle
}

#[test]
fn inputs_up_to_the_limit() {
    let mut random = Random::new(63);
    for length in [MOST_INPUT - 1, MOST_INPUT] {
        let first = format!("version 1 bytes {length} entries 2\n");
        let mut bundle = bundle_of_length(length);
        assert!(listed(&bundle).starts_with(&first));
        bundle.pop();
        assert_eq!(listed(&bundle), "refused 9 at 1\n");
        assert!(listed(&random.bytes(length)).starts_with("refused"));
    }
    let mut many = vec![entry(&[0x41; 37], 0)];
    many.resize(2_977, entry(&[], 0));
    let bundle = bundle_of(&many);
    assert_eq!(bundle.len(), MOST_INPUT);
    assert!(listed(&bundle).ends_with("\n2976 at 65514 header 0 body 0 calls 2\ncalls 5954\n"));
}

/// Past the limit it does not matter what the bytes are: a sound bundle is refused too.
#[test]
fn inputs_past_the_limit() {
    let mut random = Random::new(64);
    for length in [65_537, 65_538, 65_605, 131_072, 1_048_576] {
        for input in [bundle_of_length(length), random.bytes(length)] {
            assert_eq!(listed(&input), "refused 6 at 65536\n");
        }
    }
    assert_eq!(listed(&vec![1; 20_000_000]), "refused 6 at 65536\n");
}
