//! What the rows over a message share: its size, and how many calls make a run.

use crate::table::{Maker, Row};

/// The sizes that are measured, in bytes.
pub const SIZES: [usize; 3] = [64, 1 << 10, 1 << 20];

/// One call over a message.
pub type Call = Box<dyn FnMut(&[u8])>;

/// A row whose run goes over about 64 KiB, or over one message if that is longer.
pub fn row(name: &str, maker: Maker, size: usize, blocks: usize, call: Option<Call>) -> Row {
    let calls = (65_536 / size).max(1);
    let message = vec![0x41; size];
    let run = call.map(|mut call| -> Box<dyn FnMut()> {
        Box::new(move || (0..calls).for_each(|_| call(&message)))
    });
    Row {
        job: format!("{name}, {}", size_label(size)),
        maker,
        note: "",
        calls: calls as u64,
        blocks: blocks as u64,
        bytes: size as u64,
        run,
    }
}

/// A size as the tables name it.
fn size_label(bytes: usize) -> String {
    match bytes {
        0x10_0000.. => format!("{} MiB", bytes >> 20),
        0x400.. => format!("{} KiB", bytes >> 10),
        _ => format!("{bytes} B"),
    }
}
