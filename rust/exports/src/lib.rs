//! The exports of the library's two archives as safe functions: `desk` is what C programs link,
//! `probe` has a module for each stage of the library.
//!
//! Every function here is `inline`, so that a measurement sees little beside the export itself.

mod pairs;

pub mod desk;
pub mod probe;
