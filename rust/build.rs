//! Links the proved static library, `libffi.a`: from the folder that FELAVUTI_LIB names, else from the repository's target/staticlib.
use std::{env, path::PathBuf};

fn main() {
    let usual = || PathBuf::from(env::var("CARGO_MANIFEST_DIR").unwrap()).join("../target/staticlib");
    let folder = env::var_os("FELAVUTI_LIB").map_or_else(usual, PathBuf::from);
    let archive = folder.join("libffi.a");
    println!("cargo:rerun-if-env-changed=FELAVUTI_LIB");
    println!("cargo:rerun-if-changed={}", archive.display());
    if !archive.is_file() {
        panic!("there is no {}: build it with `rust/library`, or let FELAVUTI_LIB name its folder", archive.display());
    }
    let target = env::var("TARGET").unwrap();
    if !target.starts_with("x86_64-") {
        panic!("the proved library is for x86-64, not for {target}");
    }
    println!("cargo:rustc-link-search=native={}", folder.display());
    println!("cargo:rustc-link-lib=static=ffi");
}
