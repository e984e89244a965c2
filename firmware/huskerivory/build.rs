//! Links the proved library, which the repository builds apart from cargo: for a Cortex-M33 the
//! archive of `chip/build`, by the way in which floating-point numbers are passed, and otherwise
//! that of `tools/built boundary_c`.

use std::{env, path::PathBuf};

fn main() {
    let target = env::var("TARGET").unwrap();
    let (folder, name, made_by) = match target.as_str() {
        "thumbv8m.main-none-eabi" => ("chip", "huskerivory-thumbv8m", "chip/build"),
        "thumbv8m.main-none-eabihf" => ("chip", "huskerivory-thumbv8m-hard", "chip/build"),
        _ => ("staticlib", "boundary", "tools/built boundary_c"),
    };
    let manifest = PathBuf::from(env::var_os("CARGO_MANIFEST_DIR").unwrap());
    let folder = manifest.join("../../target").join(folder);
    let library = folder.join(format!("lib{name}.a"));
    println!("cargo::rerun-if-changed=build.rs");
    println!("cargo::rerun-if-changed={}", library.display());
    if library.exists() {
        println!("cargo::rustc-link-search=native={}", folder.display());
        println!("cargo::rustc-link-lib=static={name}");
    } else {
        println!(
            "cargo::error={} is missing: run {made_by} first",
            library.display()
        );
    }
}
