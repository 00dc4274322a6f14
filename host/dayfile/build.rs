//! Finds the proved library: target/staticlib/libdayfile.a of the repository, or the folder that DAYFILE_LIB names.

use std::env;
use std::path::PathBuf;

fn main() {
    println!("cargo:rerun-if-env-changed=DAYFILE_LIB");
    let here = env::var_os("CARGO_MANIFEST_DIR").expect("cargo names the crate's folder");
    let folder = match env::var_os("DAYFILE_LIB") {
        Some(folder) => PathBuf::from(folder),
        None => PathBuf::from(here).join("../../target/staticlib"),
    };
    let archive = folder.join("libdayfile.a");
    println!("cargo:rerun-if-changed={}", archive.display());
    if !archive.is_file() {
        panic!("{} is not there: run `tools/library dayfile` first", archive.display());
    }
    println!("cargo:rustc-link-search=native={}", folder.display());
    println!("cargo:rustc-link-lib=static=dayfile");
}
