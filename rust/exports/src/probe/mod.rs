//! The exports of libprobe.a, a module for each stage of the library.

pub mod bundles;
pub mod duplex;
pub mod hashes;
pub mod permutation;
pub mod running;
pub mod sessions;
