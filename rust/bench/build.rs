//! Compiles the plain C permutation once with each C compiler that is installed.

use std::env;
use std::io::ErrorKind;
use std::path::Path;
use std::process::Command;

const SOURCE: &str = "../../c/bench/keccak_plain.c";

/// Compiles the source under a name of the compiler's own and links it; says so in a `cfg`.
fn compile(compiler: &str) {
    println!("cargo:rustc-check-cfg=cfg({compiler})");
    let object = Path::new(&env::var_os("OUT_DIR").unwrap()).join(format!("{compiler}.o"));
    let outcome = Command::new(compiler)
        .args(["-O3", "-Wall", "-Wextra", "-c", SOURCE, "-o"])
        .arg(&object)
        .arg(format!("-DKECCAK_PLAIN=keccak_plain_{compiler}"))
        .status();
    match outcome {
        Err(error) if error.kind() == ErrorKind::NotFound => return,
        Err(error) => panic!("{compiler} did not start: {error}"),
        Ok(status) => assert!(status.success(), "{compiler} refused {SOURCE}"),
    }
    println!("cargo:rustc-link-arg-bins={}", object.display());
    println!("cargo:rustc-cfg={compiler}");
}

fn main() {
    println!("cargo:rerun-if-changed={SOURCE}");
    compile("clang");
    compile("gcc");
}
