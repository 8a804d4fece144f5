//! Links the archive that `tools/archive` makes.
use std::path::Path;

fn main() {
    let folder = Path::new(env!("CARGO_MANIFEST_DIR")).join("../crates/sycamoot/out");
    let archive = folder.join("libsycamoot.a");
    assert!(archive.exists(), "{} is not there: run `tools/archive`", archive.display());
    println!("cargo:rerun-if-changed={}", archive.display());
    println!("cargo:rustc-link-search=native={}", folder.display());
    println!("cargo:rustc-link-lib=static=sycamoot");
}
