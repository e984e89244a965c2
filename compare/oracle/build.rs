//! Lays the driver's files, unchanged, beside our `i2c_def.rs`, so that its own `mod` lines find
//! them all. They are links: nothing of the driver is copied.

use std::{env, fs, io, os::unix::fs::symlink, path::Path, path::PathBuf};

const DRIVER: [&str; 4] = ["macros.rs", "i2c.rs", "i2c/config.rs", "i2c/hal.rs"];

/// Included by `lib.rs`. It stands in the links' folder, where these lines look for their files.
const MODULES: &str = "
#[macro_use]
mod macros;
#[allow(dead_code, clippy::all, rustdoc::all)] // not ours to change, and document 01 does not take it all
mod i2c;
";

fn main() -> io::Result<()> {
    let manifest = PathBuf::from(env::var_os("CARGO_MANIFEST_DIR").unwrap());
    let out = PathBuf::from(env::var_os("OUT_DIR").unwrap());
    println!("cargo::rerun-if-changed=build.rs");
    println!("cargo::rerun-if-env-changed=HUSKERIVORY_SHARED");
    println!("cargo::rustc-check-cfg=cfg(feature, values(\"defmt\"))");

    let shared = env::var_os("HUSKERIVORY_SHARED")
        .map_or_else(|| manifest.join("../../../shared"), PathBuf::from);
    fs::create_dir_all(out.join("i2c"))?;
    for file in DRIVER {
        let source = shared.join("docs/src/src").join(file);
        let Ok(source) = source.canonicalize() else {
            println!(
                "cargo::error=the driver's file {} was looked for and not found; set \
                 HUSKERIVORY_SHARED to the shared folder, which has it as docs/src/src/{file}",
                source.display()
            );
            return Ok(());
        };
        link(&source, &out.join(file))?;
    }
    link(
        &manifest.join("src/i2c_def.rs"),
        &out.join("i2c/i2c_def.rs"),
    )?;
    fs::write(out.join("modules.rs"), MODULES)
}

fn link(source: &Path, place: &Path) -> io::Result<()> {
    println!("cargo::rerun-if-changed={}", source.display());
    if place.is_symlink() {
        fs::remove_file(place)?;
    }
    symlink(source, place)
}
