//! Hands the archive to the linker, for the program alone: the library's tests run without it.

use std::env;
use std::path::PathBuf;

fn main() {
    let archive = match env::var_os("MOONBLEAT_ARCHIVE") {
        Some(path) => PathBuf::from(path),
        None => PathBuf::from(env::var_os("CARGO_MANIFEST_DIR").expect("cargo sets it"))
            .join("../target/staticlib/libmoonbleat.a"),
    };
    println!("cargo:rerun-if-env-changed=MOONBLEAT_ARCHIVE");
    println!("cargo:rerun-if-changed={}", archive.display());
    println!("cargo:rustc-link-arg-bins={}", archive.display());
}
