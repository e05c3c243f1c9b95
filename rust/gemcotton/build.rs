//! Links the proved library's archive, and says how to make it where it is missing.

use std::env;
use std::path::Path;

fn main() {
    let package = env::var("CARGO_MANIFEST_DIR").expect("cargo sets CARGO_MANIFEST_DIR");
    let folder = Path::new(&package).join("../../target/staticlib");
    let archive = folder.join("libstrip_c.a");
    println!("cargo::rerun-if-changed={}", archive.display());
    if archive.exists() {
        println!("cargo::rustc-link-search=native={}", folder.display());
        println!("cargo::rustc-link-lib=static=strip_c");
    } else {
        println!("cargo::error=libstrip_c.a is missing: run `tools/build` in the repository's folder");
    }
}
