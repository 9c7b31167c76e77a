//! Calls of libdesk.a.

use crate::made_up::{message, room};
use crate::{sessions, Trial};
use compare::hashes::digested;
use compare::random::Random;
use compare::sessions::Calls;
use exports::desk::{open, sha3_256, unwrap, wrap, RATE, TAG};

/// The archive's two calls on pairs.
const CALLS: Calls = Calls { wrap, unwrap };

/// Each export.
pub const TRIALS: [Trial; 4] = [
    ("feefledown_open", |random| {
        sessions::open(random, open, RATE, TAG)
    }),
    ("feefledown_wrap", |random| sessions::wrap(random, CALLS)),
    ("feefledown_unwrap", |random| {
        sessions::unwrap(random, CALLS)
    }),
    ("feefledown_sha3_256", try_sha3_256),
];

fn try_sha3_256(random: &mut Random) {
    let (message, room) = (message(random), room(random, 32));
    digested(sha3_256, &message, &room);
}
