//! The library's permutation against the reference, over more than 20,000 states.

use compare::permutation::permuted;
use compare::random::Random;
use exports::probe::permutation::{permute, permute_times};

/// Permutes a state once by both and answers the state that they agree on.
fn agreed(state: &[u8]) -> Vec<u8> {
    let seen = permuted(permute, state, 1);
    assert_eq!(seen.answer, 0);
    seen.lent
}

#[test]
fn zero_and_full_states() {
    agreed(&[0; 200]);
    agreed(&[255; 200]);
}

#[test]
fn every_single_bit() {
    for bit in 0..1600 {
        let mut state = [0; 200];
        state[bit / 8] = 1 << (bit % 8);
        agreed(&state);
    }
}

#[test]
fn every_single_byte_value_in_turn() {
    for value in 0..=255 {
        agreed(&[value; 200]);
    }
}

#[test]
fn random_states() {
    let mut random = Random::new(1);
    for _ in 0..16_000 {
        agreed(&random.bytes(200));
    }
}

#[test]
fn each_state_after_the_last() {
    (0..4_000).fold(vec![0; 200], |state, _| agreed(&state));
}

#[test]
fn many_times_in_one_call() {
    let mut random = Random::new(2);
    for times in (0..=64).chain([100, 255, 256, 257, 1_000, 5_000]) {
        let call = |state: &mut [u8]| permute_times(state, times);
        let seen = permuted(call, &random.bytes(200), times);
        assert_eq!(seen.answer, 0, "{times} times");
    }
}

#[test]
fn another_length_is_refused_and_nothing_is_written() {
    let mut random = Random::new(3);
    for length in [0, 1, 8, 199, 201, 208, 400] {
        let bytes = random.bytes(length);
        let seen = permuted(permute, &bytes, 1);
        assert_eq!((seen.answer, &seen.lent), (6, &bytes), "length {length}");
        for times in [0, 1, 3] {
            let call = |state: &mut [u8]| permute_times(state, times);
            let seen = permuted(call, &bytes, times);
            assert_eq!((seen.answer, &seen.lent), (6, &bytes), "length {length}");
        }
    }
}
