//! Finds the proved library: target/staticlib/libgateway.a of the repository, or the folder that GATEWAY_LIB names.

use std::env;
use std::path::PathBuf;

fn main() {
    println!("cargo:rerun-if-env-changed=GATEWAY_LIB");
    let here = env::var_os("CARGO_MANIFEST_DIR").expect("cargo names the crate's folder");
    let folder = match env::var_os("GATEWAY_LIB") {
        Some(folder) => PathBuf::from(folder),
        None => PathBuf::from(here).join("../../target/staticlib"),
    };
    let archive = folder.join("libgateway.a");
    println!("cargo:rerun-if-changed={}", archive.display());
    if !archive.is_file() {
        panic!("{} is not there: run `tools/library gateway` first", archive.display());
    }
    println!("cargo:rustc-link-search=native={}", folder.display());
    println!("cargo:rustc-link-lib=static=gateway");
}
