//! Links the Rattle library `boundary`, which the repository builds apart from cargo.

use std::{env, path::PathBuf};

fn main() {
    let manifest = PathBuf::from(env::var_os("CARGO_MANIFEST_DIR").unwrap());
    let folder = manifest.join("../../target/staticlib");
    let library = folder.join("libboundary.a");
    println!("cargo::rerun-if-changed=build.rs");
    println!("cargo::rerun-if-changed={}", library.display());
    if library.exists() {
        println!("cargo::rustc-link-search=native={}", folder.display());
        println!("cargo::rustc-link-lib=static=boundary");
    } else {
        println!(
            "cargo::error={} is missing: run tools/built boundary_c first",
            library.display()
        );
    }
}
