//! The permutation by both sides.

use crate::buffers::{compared, Seen};
use reference::keccak::{bytes_of, lanes_of, permuted_1600};
use reference::spongewrap::{Refusal, ROOM};

/// Permutes the state in a buffer `times` times by both; another length than 200 is refused.
pub fn permuted(library: impl Fn(&mut [u8]) -> u8, state: &[u8], times: u64) -> Seen<u8> {
    compared(
        &[],
        state,
        [],
        |_, state, []| library(state),
        |_, state| permute_times(state, times),
    )
}

/// What the reference makes of a state in `times` permutations.
fn permute_times(state: &mut [u8], times: u64) -> Refusal {
    let Ok(state) = <&mut [u8; 200]>::try_from(state) else {
        return ROOM;
    };
    *state = bytes_of(&(0..times).fold(lanes_of(state), |lanes, _| permuted_1600(lanes)));
    0
}
