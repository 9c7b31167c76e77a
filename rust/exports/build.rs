//! Links both archives from the folder that FEEFLEDOWN_STATICLIB names, else from
//! target/staticlib, where the Makefile leaves them.

use std::env;
use std::path::{Path, PathBuf};

/// The folder of the archives.
fn folder() -> PathBuf {
    match env::var_os("FEEFLEDOWN_STATICLIB") {
        Some(named) => PathBuf::from(named),
        None => {
            Path::new(&env::var_os("CARGO_MANIFEST_DIR").unwrap()).join("../../target/staticlib")
        }
    }
}

/// Tells cargo to link the archive of that name, and to build again when it changes.
fn link(folder: &Path, name: &str) {
    let archive = folder.join(format!("lib{name}.a"));
    assert!(
        archive.exists(),
        "{} is missing: build it, or name its folder in FEEFLEDOWN_STATICLIB",
        archive.display()
    );
    println!("cargo:rerun-if-changed={}", archive.display());
    println!("cargo:rustc-link-lib=static={name}");
}

fn main() {
    let folder = folder();
    println!("cargo:rerun-if-env-changed=FEEFLEDOWN_STATICLIB");
    println!("cargo:rustc-link-search=native={}", folder.display());
    link(&folder, "probe");
    link(&folder, "desk");
}
