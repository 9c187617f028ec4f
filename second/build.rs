//! Names the static library that `compare` and `bench` are linked with.
//!
//! `FQ_LIB_DIR` is the directory that holds `libcapi.a`; a relative one is
//! taken from this package's directory, and the default is
//! `../target/staticlib`. The library itself, its unit tests and `list` need
//! no static library, so they build before there is one.

use std::env;
use std::path::Path;

const DEFAULT_DIR: &str = "../target/staticlib";

fn main() {
    let package = env::var("CARGO_MANIFEST_DIR").expect("cargo sets it");
    let dir = env::var("FQ_LIB_DIR").unwrap_or_else(|_| DEFAULT_DIR.to_string());
    let archive = Path::new(&package).join(dir).join("libcapi.a");

    println!("cargo:rerun-if-env-changed=FQ_LIB_DIR");
    println!("cargo:rerun-if-changed=build.rs");
    println!("cargo:rerun-if-changed={}", archive.display());
    for bin in ["compare", "bench"] {
        println!("cargo:rustc-link-arg-bin={bin}={}", archive.display());
    }
}
