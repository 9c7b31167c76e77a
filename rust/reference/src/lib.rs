//! A second version of Feefledown in plain Rust, to compare the proved library with. It prefers the
//! shape of its documents to speed.
//!
//! How independent it is. The library's own makers wrote it, from FIPS 202, "Duplexing the sponge"
//! and document 01. It shares nothing with the library but these documents: no code, no table, no
//! definition; it finds the offsets and the round constants by their rules. But one mind read the
//! documents for both, so a misreading could stand in both, and the calls that tests compare have
//! the library's form (`desk`, `bundle::entry_at`, `Duplex::duplexing_into`).
//!
//! So it is itself held to what others made: NIST's response files for the hashes, the tables of
//! source document 002, published values of the permutations, document 01's examples, and sessions
//! and bundles of a third program, written from the paper and the standard apart from both.

pub mod bundle;
pub mod desk;
pub mod duplex;
pub mod keccak;
pub mod sponge;
pub mod spongewrap;
