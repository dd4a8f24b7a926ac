//! Says where the static library and the desk's stand, for `differ` alone
//! (feature `library`): target/staticlib of the whole tree.

use std::env;
use std::path::Path;

fn main() {
    println!("cargo:rerun-if-changed=build.rs");
    if env::var_os("CARGO_FEATURE_LIBRARY").is_none() {
        return;
    }
    let here = env::var("CARGO_MANIFEST_DIR").expect("cargo says where the crate is");
    let there = Path::new(&here).join("../../target/staticlib");
    for archive in ["liblubdhvani.a", "liblubdhvani_desk.a"] {
        println!("cargo:rerun-if-changed={}", there.join(archive).display());
    }
    println!("cargo:rustc-link-search=native={}", there.display());
}
