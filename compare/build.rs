//! Builds lobster from its own source, unchanged, twice: `lobster` as a release build makes it (sums wrap), and `lobster_checked`
//! as a debug build makes it (a sum that would wrap panics). No Cargo.toml of lobster's is needed.
//!
//! LOBSTER_SRC names the folder that holds lobster's `src` (or `src` itself); else it is ../shared/docs/src beside the repository.
//!
//! FELAVUTI_BEFORE may name the folder of an older libffi.a: it is linked too, each of its names with `before_` in front, so that `bench before` can call both.
use std::{env, path::PathBuf, process::Command};

fn main() {
    let here = PathBuf::from(env::var("CARGO_MANIFEST_DIR").unwrap());
    let folder = env::var_os("LOBSTER_SRC").map_or_else(|| here.join("../../shared/docs/src"), PathBuf::from);
    let inner = folder.join("src");
    let source = if inner.join("lib.rs").is_file() { inner } else { folder };
    println!("cargo:rerun-if-env-changed=LOBSTER_SRC");
    println!("cargo:rerun-if-changed={}", source.display());
    if !source.join("orderbook.rs").is_file() {
        panic!("lobster's source is not at {}: let LOBSTER_SRC name its folder", source.display());
    }
    let version = Command::new(env::var_os("RUSTC").unwrap()).arg("--version").output().expect("rustc can be started").stdout;
    println!("cargo:rustc-env=RUSTC_VERSION={}", String::from_utf8_lossy(&version).trim());
    for (name, checks) in [("lobster", "no"), ("lobster_checked", "yes")] {
        build(name, checks, &source.join("lib.rs"));
    }
    println!("cargo:rustc-link-search=crate={}", env::var("OUT_DIR").unwrap());
    println!("cargo:rustc-check-cfg=cfg(before)");
    println!("cargo:rerun-if-env-changed=FELAVUTI_BEFORE");
    if let Some(folder) = env::var_os("FELAVUTI_BEFORE") {
        before(&PathBuf::from(folder).join("libffi.a"));
    }
}

/// Links the older library under its new names.
fn before(archive: &PathBuf) {
    println!("cargo:rerun-if-changed={}", archive.display());
    let listed = Command::new("nm").args(["-g", "--defined-only"]).arg(archive).output().expect("nm can be started");
    assert!(listed.status.success(), "there is no older library at {}", archive.display());
    let listed = String::from_utf8_lossy(&listed.stdout);
    let names = listed.lines().filter_map(|line| line.split_whitespace().nth(2)).map(|name| format!("{name} before_{name}\n"));
    let folder = PathBuf::from(env::var("OUT_DIR").unwrap());
    std::fs::write(folder.join("names"), names.collect::<String>()).expect("OUT_DIR can be written to");
    let status = Command::new("objcopy")
        .arg(format!("--redefine-syms={}", folder.join("names").display()))
        .arg(archive)
        .arg(folder.join("libbefore.a"))
        .status()
        .expect("objcopy can be started");
    assert!(status.success(), "the older library was not renamed");
    println!("cargo:rustc-link-search=native={}", folder.display());
    println!("cargo:rustc-link-lib=static=before");
    println!("cargo:rustc-cfg=before");
}

fn build(name: &str, checks: &str, source: &PathBuf) {
    let status = Command::new(env::var_os("RUSTC").unwrap())
        .args(["--crate-name", name, "--crate-type", "rlib", "--edition", "2018", "--cap-lints", "allow"])
        .args(["--target", &env::var("TARGET").unwrap(), "-C", "opt-level=3"])
        .args(["-C", &format!("overflow-checks={checks}"), "-C", &format!("debug-assertions={checks}")])
        .args(["--out-dir", &env::var("OUT_DIR").unwrap()])
        .arg(source)
        .status()
        .expect("rustc can be started");
    assert!(status.success(), "lobster was not built");
}
