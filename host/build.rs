//! Links the archive of the proved library, which `bash tests/archive` makes.

use std::path::Path;

const MISSING: &str =
    "target/staticlib/libgateway.a is not there: run `bash tests/archive` at the top of the repository";

fn main() {
    let here = std::env::var("CARGO_MANIFEST_DIR").expect("cargo names the folder");
    let folder = Path::new(&here).join("../target/staticlib");
    let archive = folder.join("libgateway.a");
    println!("cargo::rerun-if-changed=build.rs");
    println!("cargo::rerun-if-changed={}", archive.display());
    if archive.is_file() {
        println!("cargo::rustc-link-search=native={}", folder.display());
        println!("cargo::rustc-link-lib=static=gateway");
    } else {
        println!("cargo::error={MISSING}");
    }
}
