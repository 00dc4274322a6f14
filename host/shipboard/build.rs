//! Finds the proved library: target/staticlib/libshipboard.a of the repository, or the folder that SHIPBOARD_LIB names.

use std::env;
use std::path::PathBuf;

fn main() {
    println!("cargo:rerun-if-env-changed=SHIPBOARD_LIB");
    let here = env::var_os("CARGO_MANIFEST_DIR").expect("cargo names the crate's folder");
    let folder = match env::var_os("SHIPBOARD_LIB") {
        Some(folder) => PathBuf::from(folder),
        None => PathBuf::from(here).join("../../target/staticlib"),
    };
    let archive = folder.join("libshipboard.a");
    println!("cargo:rerun-if-changed={}", archive.display());
    if !archive.is_file() {
        panic!("{} is not there: run `tools/library shipboard` first", archive.display());
    }
    println!("cargo:rustc-link-search=native={}", folder.display());
    println!("cargo:rustc-link-lib=static=shipboard");
}
