//! Tells the linker where link.ld is, for this crate's examples and for programs that use it.

use std::env;

fn main() {
    let here = env::var("CARGO_MANIFEST_DIR").expect("cargo names the crate's folder");
    println!("cargo::rustc-link-search={here}/../c");
    println!("cargo::rerun-if-changed={here}/../c/link.ld");
}
