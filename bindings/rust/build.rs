//! Links target/staticlib/libfield_axes.a of the repository, which `.ci/staticlib` writes.

use std::path::Path;

fn main() {
    let package = std::env::var("CARGO_MANIFEST_DIR").expect("cargo sets it");
    let folder = Path::new(&package).join("../../target/staticlib");
    let archive = folder.join("libfield_axes.a");
    assert!(
        archive.exists(),
        "target/staticlib/libfield_axes.a is missing: run `.ci/staticlib` at the repository's root"
    );
    println!("cargo:rerun-if-changed={}", archive.display());
    println!("cargo:rustc-link-search=native={}", folder.display());
    println!("cargo:rustc-link-lib=static=field_axes");
}
