//! The response files, from crates/vectors/data or the folder that FEEFLEDOWN_VECTORS names.

use std::path::{Path, PathBuf};

/// The folder of the response files.
fn folder() -> PathBuf {
    match std::env::var_os("FEEFLEDOWN_VECTORS") {
        Some(named) => PathBuf::from(named),
        None => Path::new(env!("CARGO_MANIFEST_DIR")).join("../../crates/vectors/data"),
    }
}

/// The fields of a file in their order, each a name and what it is; comments and headings are left
/// out, but for headings that have a value.
pub fn fields(file: &str) -> Vec<(String, String)> {
    let path = folder().join(file);
    let text = std::fs::read_to_string(&path).unwrap_or_else(|error| panic!("{path:?}: {error}"));
    let lines = text.lines().filter(|line| !line.starts_with('#'));
    lines
        .filter_map(|line| line.trim().trim_matches(['[', ']']).split_once(" ="))
        .map(|(name, value)| (name.to_string(), value.trim().to_string()))
        .collect()
}

/// The bytes that hexadecimal digits spell.
pub fn bytes(digits: &str) -> Vec<u8> {
    let starts = (0..digits.len()).step_by(2);
    starts
        .map(|at| u8::from_str_radix(&digits[at..at + 2], 16).unwrap())
        .collect()
}
