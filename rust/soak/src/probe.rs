//! Calls of libprobe.a but for the bundles.

use crate::made_up::{around, blank, key, message, once_in, room};
use crate::{sessions, Trial};
use compare::duplex::{duplexed, made, object, OBJECT};
use compare::hashes::{filled, Shake};
use compare::permutation::permuted;
use compare::random::Random;
use compare::sessions::{
    damage, length, opened_by_default, string, tag_length, Calls, RATES, TAGS,
};
use exports::probe::duplex::{duplexing, new};
use exports::probe::hashes::{shake128, shake256};
use exports::probe::permutation::{permute, permute_times};
use exports::probe::running;
use exports::probe::sessions::{default_open, open};
use reference::sponge;

/// The two calls on pairs through the running session.
const RUNNING: Calls = Calls {
    wrap: running::wrap,
    unwrap: running::unwrap,
};

/// Each export.
pub const TRIALS: [Trial; 10] = [
    ("probe_permute", try_permute),
    ("probe_permute_times", try_permute_times),
    ("probe_shake128", try_shake128),
    ("probe_shake256", try_shake256),
    ("probe_new_duplex", try_new_duplex),
    ("probe_duplexing", try_duplexing),
    ("probe_open", try_open),
    ("probe_default_open", try_default_open),
    ("probe_running_wrap", |random| {
        sessions::wrap(random, RUNNING)
    }),
    ("probe_running_unwrap", |random| {
        sessions::unwrap(random, RUNNING)
    }),
];

/// A state, of another length now and then.
fn state(random: &mut Random) -> Vec<u8> {
    let length = match random.below(8) {
        0 => around(random, 200),
        1 => length(random),
        _ => 200,
    };
    random.bytes(length)
}

fn try_permute(random: &mut Random) {
    permuted(permute, &state(random), 1);
}

fn try_permute_times(random: &mut Random) {
    let (state, times) = (state(random), random.below(40) as u64);
    permuted(|state| permute_times(state, times), &state, times);
}

fn try_shake128(random: &mut Random) {
    shake(random, shake128, sponge::shake128);
}

fn try_shake256(random: &mut Random) {
    shake(random, shake256, sponge::shake256);
}

/// A SHAKE of any message to any length.
fn shake(random: &mut Random, library: Shake, reference: Shake) {
    let message = message(random);
    let room = match once_in(random, 2) {
        true => crate::made_up::message(random),
        false => room(random, 136),
    };
    filled(library, reference, &message, &room);
}

/// A rate, which is none of the two now and then.
fn rate(random: &mut Random) -> u16 {
    match random.below(8) {
        0 => random.pick(&RATES),
        1 => random.word() as u16,
        _ => random.pick(&[136, 168]),
    }
}

fn try_new_duplex(random: &mut Random) {
    let (rate, mut bytes) = (rate(random), random.bytes(OBJECT));
    if once_in(random, 6) {
        damage(random, &mut bytes);
    }
    made(new, rate, &bytes);
}

fn try_duplexing(random: &mut Random) {
    let state = random.bytes(200).try_into().unwrap();
    let mut bytes = object(&state, rate(random)).to_vec();
    if once_in(random, 12) {
        damage(random, &mut bytes);
    }
    let (piece, frame, room) = (string(random), once_in(random, 2), string(random));
    duplexed(duplexing, &bytes, &piece, frame, &room);
}

fn try_open(random: &mut Random) {
    let (rate, mut tag) = (rate(random), tag_length(random));
    match random.below(8) {
        0 => tag = random.pick(&TAGS),
        1 => tag = random.word() as u16,
        _ => {}
    }
    sessions::open(random, |key, image| open(rate, tag, key, image), rate, tag);
}

fn try_default_open(random: &mut Random) {
    let (key, image) = (key(random), blank(random));
    opened_by_default(default_open, &key, &image);
}
