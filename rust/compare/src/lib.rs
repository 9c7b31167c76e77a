//! Each call made by both sides, the library's and the reference's, which must leave the same; with
//! made-up inputs and watched buffers for it.
//!
//! Nothing here knows an archive: a call of the library's is passed in, and the reference's stands
//! beside it. So one look at sessions serves every archive that has them.

pub mod buffers;
pub mod bundles;
pub mod duplex;
pub mod hashes;
pub mod pages;
pub mod permutation;
pub mod random;
pub mod sessions;
pub mod trials;
