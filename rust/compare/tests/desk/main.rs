//! The C surface against the reference.

mod hashes;
mod header;
mod null;
mod sessions;
