//! Rows of the permutation alone.

use crate::openssl::Digest;
use crate::table::{Maker, Row, PERMUTATION};
use exports::probe::permutation::permute_times;
use reference::keccak::permuted_1600;

/// Permutations in one run.
const CALLS: u64 = 1_000;

/// Permutations in one run of the reference, which takes its time.
const FEW_CALLS: u64 = 50;

/// Blocks of a message that is long beside a hash's own cost and still stays in the nearest cache.
const MESSAGE: u64 = 200;

/// The plain C function: permutes 25 lanes so many times.
type Permute = unsafe extern "C" fn(lanes: *mut u64, times: u64);

#[cfg(clang)]
const CLANG: Option<Permute> = Some(keccak_plain_clang);
#[cfg(not(clang))]
const CLANG: Option<Permute> = None;

#[cfg(gcc)]
const GCC: Option<Permute> = Some(keccak_plain_gcc);
#[cfg(not(gcc))]
const GCC: Option<Permute> = None;

extern "C" {
    #[cfg(clang)]
    fn keccak_plain_clang(lanes: *mut u64, times: u64);
    #[cfg(gcc)]
    fn keccak_plain_gcc(lanes: *mut u64, times: u64);
}

/// All rows of the permutation, the library's first.
pub fn rows() -> Vec<Row> {
    vec![library(), clang(), gcc(), openssl(), reference()]
}

/// A row of the permutation, one block a call.
fn row(maker: Maker, calls: u64, run: Option<Box<dyn FnMut()>>) -> Row {
    Row {
        job: PERMUTATION.to_string(),
        maker,
        note: "",
        calls,
        blocks: 1,
        bytes: 0,
        run,
    }
}

/// The library's permutation, through its export for many in one call.
fn library() -> Row {
    let mut state = [0; 200];
    let run = move || assert_eq!(permute_times(&mut state, CALLS), 0);
    row(Maker::Library, CALLS, Some(Box::new(run)))
}

/// The reference's permutation.
fn reference() -> Row {
    let mut lanes = [0; 25];
    let run = move || lanes = (0..FEW_CALLS).fold(lanes, |lanes, _| permuted_1600(lanes));
    row(Maker::Reference, FEW_CALLS, Some(Box::new(run)))
}

/// Plain C by clang -O3.
fn clang() -> Row {
    plain_c(Maker::Clang, CLANG)
}

/// Plain C by gcc -O3.
fn gcc() -> Row {
    plain_c(Maker::Gcc, GCC)
}

/// A row of plain C, once its answer is seen to be right.
fn plain_c(maker: Maker, permute: Option<Permute>) -> Row {
    let run = permute.map(|permute| -> Box<dyn FnMut()> {
        let mut lanes = [0; 25];
        // SAFETY: the C function reads and writes 25 lanes, here and in each run.
        unsafe { permute(lanes.as_mut_ptr(), 1) };
        assert_eq!(lanes, permuted_1600([0; 25]));
        Box::new(move || unsafe { permute(lanes.as_mut_ptr(), CALLS) })
    });
    row(maker, CALLS, run)
}

/// OpenSSL keeps its permutation to itself: long messages are hashed and shared out by blocks.
fn openssl() -> Row {
    let message = vec![0x41; 136 * MESSAGE as usize - 1];
    let run = Digest::sha3_256().map(|digest| -> Box<dyn FnMut()> {
        Box::new(move || (0..CALLS / MESSAGE).for_each(|_| digest.hash(&message, &mut [0; 32])))
    });
    Row {
        note: " (SHA3-256 through EVP, per block)",
        ..row(Maker::OpenSsl, CALLS, run)
    }
}
