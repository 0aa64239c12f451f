//! Says where the archive lies: HOUGHBREEZE_ARCHIVE_DIR, or where `tools/archive` puts it.

use std::env;
use std::path::PathBuf;

fn main() {
    println!("cargo:rerun-if-env-changed=HOUGHBREEZE_ARCHIVE_DIR");
    let built =
        || PathBuf::from(env::var_os("CARGO_MANIFEST_DIR").unwrap()).join("../../target/staticlib");
    let folder = env::var_os("HOUGHBREEZE_ARCHIVE_DIR").map_or_else(built, PathBuf::from);
    println!(
        "cargo:rerun-if-changed={}",
        folder.join("libhoughbreeze.a").display()
    );
    println!("cargo:rustc-link-search=native={}", folder.display());
}
