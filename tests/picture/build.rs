//! Finds the archive of `picture_check` from the repository's root and links it, and nothing else.

use std::path::Path;

fn main() {
    let root = Path::new(env!("CARGO_MANIFEST_DIR")).join("../..");
    let folder = root.join("crates/capi/out");
    let archive = folder.join("libcapi.a");
    println!("cargo::rerun-if-changed={}", archive.display());
    if !archive.is_file() {
        let place = archive.display();
        println!(
            "cargo::error={place} is not built: run `rt lib` in crates/capi"
        );
    }
    println!("cargo::rustc-link-search=native={}", folder.display());
    println!("cargo::rustc-link-lib=static=capi");
}
